#!/usr/bin/python3
"""Runs cwltool with its option --provenance, which Debian's package hides and leaves without the settings that it needs."""
import sys

from cwltool import main

plain = main.arg_parser
main.arg_parser = lambda: (parser := plain(), parser.set_defaults(orcid="", cwl_full_name="", user_provenance=False, host_provenance=False))[0]
sys.exit(main.run())
