"""The page that says what a release was made of, and how to make it anew."""
from __future__ import annotations

import time
from typing import Dict

from .checkout import Checkout
from .gate_log import GateLog
from .needs import Needs

PAGE = """# Provenance of lpd {version}

- Commit {commit}, tree {tree}, of {date}.
- Kit: `{kit}`. It proved the program, and linked it: dynamically, since it has no static C library.
- Gate: {gate}. Its log is `gate.log`, sha256 {log}.
- {skipped}
- Program: sha256 {program}, the same in the tar file and in the Debian package. It needs {needs}, and nothing else.

| Checksum (sha256) | File |
|---|---|
{files}

## To make it anew

With that kit's `rt` on the path, in a clone of the repository:

```
git checkout {commit}
.ci/run 2>&1 | tee gate.log
release/make_release --log gate.log
```

The program is what the kit makes of the sources, and the files should have the checksums above: `release/make_release` refuses a
program with other bytes than the gate's, and all times in the files are those of the commit. The gate packs them twice, and
compares. With the kit's proofs kept on that machine this takes minutes, and else as long as the gate does.
`release/try_release dist` installs the files and uses them.

What is proved is listed in docs/PROOFS.md, and docs/TRUST.md says what is only tested or trusted.
"""


def not_checked(log: GateLog) -> str:
    if not log.skipped:
        return "Every check of the gate was made."
    return "Checks that the gate did not make:\n" + "\n".join(f"    - {what}" for what in log.skipped)


def page(checkout: Checkout, kit: str, log: GateLog, log_sum: str, needs: Needs, sums: Dict[str, str]) -> str:
    return PAGE.format(
        version=checkout.version,
        commit=checkout.commit,
        tree=checkout.tree,
        date=time.strftime("%Y-%m-%d %H:%M:%S UTC", time.gmtime(checkout.seconds)),
        kit=kit,
        gate=log.sentence(),
        log=log_sum,
        skipped=not_checked(log),
        program=log.program,
        needs=needs.sentence(),
        files="\n".join(f"| {digest} | {name} |" for name, digest in sums.items()),
    )
