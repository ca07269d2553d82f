#include <stdio.h>
#include <sfv.h>
int main(void) {
    sfv_row rows[32];
    char room[64];
    sfv_answer a = sfv_parse(SFV_DICTIONARY, SFV_RFC9651, "u=1, i", 6, rows, 32, room, sizeof room);
    const sfv_row *u = a.status == SFV_OK ? sfv_member(rows, a.rows, "u") : NULL;
    int urgency = u && u->kind == SFV_INTEGER && u->number >= 0 && u->number <= 7 ? (int)u->number : 3;
    return printf("urgency %d\n", urgency) < 0;
}
