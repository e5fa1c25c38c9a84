/* A program of someone who has installed the library: gives the two circuits of a small net their slots, makes the table and checks it,
 * and prints the version. The exit status is 0 where every answer is right. Assumes the installed header on the path; C99 or C++98. */
#include <stdio.h>
#include <string.h>
#include <vaskunoor.h>

static const uint8_t request[] = {
    10, 0, 1, 0, 3, 0, 3, 0, 0, 1, 1, 2, 2, 1, 8, 0, 2, 0, 4, 1, 2, 0, 0, 0, 1, 0, 6, 0, 2, 0, 6, 2, 1, 0, 1, 0, 0, 0, 5, 0
};
static const uint8_t wanted[] = { 1, 0, 3, 0, 0, 2, 0, 3, 0, 0, 2, 0, 0, 5, 0 };
static uint8_t assignment[VASKUNOOR_ASSIGNMENT_MOST], table[VASKUNOOR_TABLE_MOST], details[VASKUNOOR_DETAILS_SIZE];

int main(void) {
    const size_t lines = 52;
    int right = vaskunoor_read(request, sizeof request, details, sizeof details) == VASKUNOOR_DONE;
    right &= vaskunoor_allocate(request, sizeof request, 10, assignment, sizeof assignment, details, sizeof details) == VASKUNOOR_DONE;
    right &= memcmp(assignment, wanted, sizeof wanted) == 0;
    right &= vaskunoor_check_assignment(request, sizeof request, wanted, sizeof wanted, details, sizeof details) == VASKUNOOR_DONE;
    right &= vaskunoor_make_tables(request, sizeof request, wanted, sizeof wanted, table, sizeof table, details, sizeof details)
             == VASKUNOOR_DONE;
    right &= details[0] == lines;
    right &= vaskunoor_check_tables(request, sizeof request, wanted, sizeof wanted, table, lines, details, sizeof details)
             == VASKUNOOR_DONE;
    printf("%s\n", VASKUNOOR_VERSION);
    return !right;
}
