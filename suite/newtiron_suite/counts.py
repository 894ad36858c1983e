"""How many plays there are, as suite/counts has them, in COUNTS."""
from .paths import SUITE

COUNTS = {line.split()[0]: int(line.split()[1])
          for line in (SUITE / "counts").read_text().split("\n")
          if line and not line.startswith("#")}
