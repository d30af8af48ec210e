/* What each refusal means and what to do, in the words of docs/HANDBOOK.md, to which tests/handbook.py holds them. */
#include "host.h"

static const char *const SENTENCES[] = {
    [1] = "N, P, F, state or epoch is out of limits. A format: N 1 to 16,384, P 1 to 64, F 64 to 4,096 in steps of 64, version 1 or 2.",
    [2] = "The volume isn't as long as its shape says. A summary, an export, an import or a move: look at its buffer, and at N P F. "
          "Else the image was cut, padded, or belongs to another drive. Take it again from the drive, whole.",
    [3] = "The mark differs, or the version is neither 1 nor 2. This is no volume of this layer, or one of a later version. Ask what wrote it.",
    [4] = "The seal differs: the present secret isn't the volume's, or head or node 1 was changed. "
          "Bring the secret of the last begin that was accepted, or of the format.",
    [5] = "The old secret isn't the one being left. While a change runs both secrets are needed, even at 100.00. Bring the one from before the begin.",
    [6] = "The head's counter isn't the outside counter that was brought. The image is older than the site's last accepted change, or the counter was "
          "read wrongly. If the tool or the server was ended before it kept the counter, the image is ahead of it, and --ahead (ahead=true) takes it.",
    [7] = "Something was altered; the place says what: head, record n, node i, or flake n, f. Keep the image as evidence.",
    [8] = "Offset, length, nugget, flake or flake range lies past the end.",
    [9] = "Begin while a change runs; sweep or finish while none does; discard on a volume of version 1. While changing sweep and finish, when steady begin. "
          "A volume of version 1 has no discard.",
    [10] = "The new secret is the present one; the two XTS keys of an export or import are equal. Make a new secret, or another key.",
    [11] = "Finish with nuggets left. Sweep the nuggets that are left, then finish. Until then the old secret must not be destroyed.",
    [12] = "Sweep of a nugget that has moved. Go on with the next one.",
    [13] = "The counter is at its top. After 2^64 - 1 changes the drive can be read but not changed any more. Copy its contents to a freshly formatted drive.",
    [15] = "The epoch is at its top: the secret was changed 65,534 times. The drive can still be read and written. "
           "For another change of the secret copy its contents to a freshly formatted drive.",
    [16] = "Moving down, and some nugget has a spent flake that isn't held: a discard freed it, and its nugget hasn't been rekeyed since. "
           "Write to a freed place of that nugget, or, while a change runs, sweep it: either rekeys the nugget, and no such flake is left in it. "
           "Then move again.",
};

const char *handbook(uint32_t number) {
    bool known = number < sizeof SENTENCES / sizeof *SENTENCES && SENTENCES[number];
    return known ? SENTENCES[number] : "This number isn't in the handbook.";
}
