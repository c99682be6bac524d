/* Two discards, and a range that has the first. Prints how many stay, and which; then the same of no list at all. */
#include <stdio.h>

#include "texture_surface_discards.h"

int main(void)
{
    deskcheck_surface list[2];
    const deskcheck_surface first = {3, 1, 2, 0}, second = {4, 0, 0, 7};
    const deskcheck_range range = {3, 1, 1, 0, 4, 0};
    size_t n = deskcheck_discard(list, 2, 0, first);
    n = deskcheck_discard(list, 2, n, second);
    printf("%zu listed, %zu with no room\n", n, deskcheck_discard(list, 2, n, first));
    n = deskcheck_retain(list, 2, n, range);
    printf("%zu stays: %u %u %u %u\n", n, list[0].texture, list[0].mip, list[0].layer, list[0].slice);
    printf("%zu and %zu of no list\n", deskcheck_discard(NULL, 0, 0, first), deskcheck_retain(NULL, 0, 0, range));
    return 0;
}
