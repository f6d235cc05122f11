"""What bin/explain says of a refusal: where it stands in the file, which rule it is of, and what would be right there."""
