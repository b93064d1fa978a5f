"""The parts of docs/openapi.json, which tools/describe puts together."""
