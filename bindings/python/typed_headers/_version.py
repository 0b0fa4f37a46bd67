"""The version, which tools/version writes."""

VERSION = "2.0.0"
