/* The header stands alone, twice, in C and in C++; its functions have C's names there. */
#include "causal_node.h"
#include "causal_node.h"

int main(void)
{
    return CAUSAL_TAKEN;
}
