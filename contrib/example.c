/* What the tables of a folder say of a position:  ./example DIR "7k/8/6K1/8/8/8/8/1Q6 w - - 0 1" */
#include <stdio.h>
#include <string.h>
#include "hofsjurd_folder.h"

/* the name of what a position is refused for, and of the file where it is one */
static void print_refused(uint32_t status, const hofsjurd_refusal *refusal)
{
    char why[HOFSJURD_TEXT_ROOM] = "";
    hofsjurd_status_name(status, why, sizeof why);
    if (status != refusal->status) printf("refused %s\n", why);
    else printf("refused %s/%s: %s\n", refusal->path, refusal->name, refusal->error ? strerror(refusal->error) : *why ? why : "changed");
}

int main(int argc, char **argv)
{
    hofsjurd_listing *listing = NULL;
    hofsjurd_prober *prober = NULL;
    hofsjurd_board board;
    char name[HOFSJURD_TEXT_ROOM];
    if (argc != 3 || hofsjurd_listing_add(&listing, argv[1], NULL, NULL) || hofsjurd_prober_open(&prober, listing, 64)) return 2;
    uint32_t status = hofsjurd_read_fen(argv[2], strlen(argv[2]), &board);
    hofsjurd_reply wdl = {status, 0}, dtz = wdl, verdict = wdl;
    if (!status) wdl = hofsjurd_prober_wdl(prober, &board);
    if (!wdl.status) dtz = hofsjurd_prober_dtz(prober, &board);
    if (!wdl.status) verdict = hofsjurd_prober_judge(prober, &board);
    status = wdl.status ? wdl.status : dtz.status ? dtz.status : verdict.status;
    hofsjurd_verdict_name((uint32_t)verdict.value, name, sizeof name);
    if (status) print_refused(status, hofsjurd_prober_refusal(prober));
    else printf("wdl %d, dtz %d, %s\n", wdl.value, dtz.value, name);
    hofsjurd_prober_close(prober);
    hofsjurd_listing_free(listing);
    return 0;
}
