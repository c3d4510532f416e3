/* Nothing of the header is used. */
#include <debctl.h>

int main(void) { return 0; }
