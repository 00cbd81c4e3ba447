/* Runs the main function of an example with no system under it: the C library is newlib, whose files are those of the emulator's host,
 * and the only argument is SHEET. */
#include <stdlib.h>

void initialise_monitor_handles(void);
int main(int count, char **arguments);

void started(void);
void started(void)
{
    static char program[] = "example", sheet[] = SHEET, *arguments[] = {program, sheet, NULL};
    initialise_monitor_handles();
    exit(main(2, arguments));
}

void fault(void);
void fault(void)
{
    _Exit(2);
}
