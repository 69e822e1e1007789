/* Shows that what is lent is guarded: over last|past|count|sealed|changed.
 * The last octet of a slice may be touched (status 0). The octet behind it may not, by this program (past) or by the face, told of
 * too many (count), nor a sealed slice (sealed): the run ends by SIGSEGV. A slice that changed stops it with status 1 (changed). */
#include "coyametzi.h"
#include "lent.h"
#include "posix.h"

int main(int words, char **word)
{
    const char *what = words > 1 ? word[1] : "";
    struct place place = new_place();
    uint8_t *slice = lend(&place, "twelve octet", 12);
    volatile uint8_t *touched = slice;

    if (strcmp(what, "last") == 0)
        touched[11] = 0;
    else if (strcmp(what, "past") == 0)
        touched[12] = 0;
    else if (strcmp(what, "count") == 0)
        mcv_field(slice, 16, 12, new_numbers(MCV_FIELD), MCV_FIELD);
    else if (strcmp(what, "sealed") == 0) {
        seal(slice);
        touched[11] = 0;
    } else if (strcmp(what, "changed") == 0) {
        touched[11] = 0;
        unchanged(&place, "over");
    } else
        stop("over", "usage: over last|past|count|sealed|changed");
    return 0;
}
