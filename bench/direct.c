// The second C device: the plain one without staging. Each step S5 writes its buffer straight to the disk, as a C programmer
// would have it who doesn't know the rule that a request takes effect on the disk wholly within one step. Among the wrong
// devices it is one; here it shows what the rule costs.
#define WRONG PAYLOAD_IN_PIECES
#include "../tests/plain/device.c"
