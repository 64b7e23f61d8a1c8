"""What looks at proofs: what is unused, what is dear, and imports. tools/proofs/README.md says when you need it.

  python3 tools/proofs unused [--write]              lemmas, abbreviations and records that nothing uses
  python3 tools/proofs vocabulary CRATE [--write]    imports of a crate's proofs from one file
  python3 tools/proofs functions CRATE [COUNT]       the functions whose proofs took longest
  python3 tools/proofs goals CRATE [SECONDS]         the goals in them that want an answer
  python3 tools/proofs drops [CRATE..]               functions in which a value with many parts goes out of scope
"""
import sys

sys.dont_write_bytecode = True
import drops
import functions
import goals
import unused
import vocabulary

COMMANDS = {"unused": unused, "vocabulary": vocabulary, "functions": functions, "goals": goals, "drops": drops}


def main(words):
    if not words or words[0] not in COMMANDS:
        sys.exit(__doc__.strip())
    return COMMANDS[words[0]].main(words[1:])


if __name__ == "__main__":
    sys.exit(main(sys.argv[1:]))
