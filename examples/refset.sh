#!/usr/bin/env bash
# Writes the rows of a simple reference set file (RF2, der2_Refset_SimpleSnapshot) for the concepts of a query.
#
#     refset.sh QUERY REFSET MODULE FOLDER [FOLDER ..]
#
# Each row has a new identifier and no effective time, as a row that is not published yet. An identifier is a random
# UUID (version 4) that Python's `uuid` makes, so each run writes other identifiers.
set -euo pipefail
top=$(dirname "${BASH_SOURCE[0]}")/..

# the package starts a built program alone, so ./hosecrag builds it here, where its messages are seen
if [ -z "${HOSECRAG:-}" ]; then "$top/hosecrag" --version >/dev/null; fi
# -I: a file uuid.py in the current folder is not imported
python3 -IB -c '
import os, signal, sys, uuid

sys.path.insert(0, sys.argv[1])
from hosecrag import Fault, Hosecrag, Refused, ReleaseRefused

# a closed pipe ends the script without a word, as it ends other tools
signal.signal(signal.SIGPIPE, signal.SIG_DFL)
query, refset, module, *folders = sys.argv[2:]
try:
    with Hosecrag(*folders) as engine:
        concepts = engine.expand(query, names=False)
except Refused as error:
    sys.exit(f"refset.sh: the query was refused: {error}")
except (Fault, ReleaseRefused, ValueError) as error:
    sys.exit(f"refset.sh: {error}")
rows = sys.stdout.buffer
rows.write(b"id\teffectiveTime\tactive\tmoduleId\trefsetId\treferencedComponentId\r\n")
for concept in concepts:
    uid = str(uuid.uuid4()).encode()
    rows.write(b"%b\t\t1\t%b\t%b\t%d\r\n" % (uid, os.fsencode(module), os.fsencode(refset), concept.identifier))
rows.flush()
' "$top/python" "$@"
