#!/usr/bin/env python3
"""Compares what stands twice: the example studies and reports in the README, on the page of recipes and in the tests with the files of
examples/, and the README's report with that of the program's stored run. The status is 1 where one differs."""
import pathlib
import sys

TOP = pathlib.Path(__file__).resolve().parents[2]


def text(path):
    return (TOP / path).read_text()


readme, recipes = text("README.md"), text("docs/recipes.md")
tests = "".join(text(f"crates/worked_cases/src/{name}.rt") for name in ("examples", "recipes", "variant_recipes"))
industrial = text("examples/industrial.toml")
differing = []
if f"```toml\n{industrial}```\n" not in readme:
    differing.append("README.md and examples/industrial.toml")
if f"```\n{text('crates/harmscan/stdout')}```\n" not in readme:
    differing.append("README.md and crates/harmscan/stdout")
if text("crates/harmscan/data/industrial.toml") != industrial:
    differing.append("crates/harmscan/data/industrial.toml and examples/industrial.toml")
for example in sorted((TOP / "examples").glob("*.toml")):
    if example.name != "industrial.toml" and f'r#"{example.read_text()}"#' not in tests:
        differing.append(f"the tests of crates/worked_cases and examples/{example.name}")
for report in sorted((TOP / "examples").glob("*.csv")):
    if f'_REPORT: &str = "\\\n{report.read_text()}";' not in tests:
        differing.append(f"the tests of crates/worked_cases and examples/{report.name}")
    if f"```\n{report.read_text()}```\n" not in recipes:
        differing.append(f"docs/recipes.md and examples/{report.name}")
    study = report.with_suffix(".toml")
    if f"(../examples/{study.name})" not in recipes:
        differing.append(f"docs/recipes.md and examples/{study.name}")
limits = text("crates/limits_cases/src/plant.rt")
for file in sorted((TOP / "examples/plant").glob("*.csv")):
    if f'= "\\\n{file.read_text()}";' not in limits:
        differing.append(f"the tests of crates/limits_cases and examples/plant/{file.name}")
    if f"\n{file.read_text()}```\n" not in recipes:
        differing.append(f"docs/recipes.md and examples/plant/{file.name}")
if f'r#"{text("examples/plant.toml")}"#' not in limits:
    differing.append("the tests of crates/limits_cases and examples/plant.toml")
for block in recipes.split("```toml\n")[1:]:
    if not any(block.startswith(example.read_text() + "```\n") for example in (TOP / "examples").glob("*.toml")):
        differing.append("docs/recipes.md and a study of examples/")
for pair in differing:
    print(f"examples: {pair} differ")
sys.exit(1 if differing else 0)
