# refused at run: not a JSON object
from pigyelund import Status, VrpFileError, read_vrps

# A bit of a status is taken for its kind: a bad line is skipped, and an invalid file is refused.
try:
    read_vrps(b"{")
except VrpFileError as fault:
    print("accepted" if fault.status & (Status.BAD_LINE | Status.BAD_ITEM) else fault)
    raise
