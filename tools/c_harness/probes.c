/* probes DIR wdl|root|ranks < FENS: what tb_probe_wdl, tb_probe_root with its list, or both calls that rank moves tell of each
 * position, by Fathom's numbers, a line each. Built with -lfathom, or over contrib/tbprobe.c: nothing else changes. */
#include <tbprobe.h>
#include <stdio.h>
#include <string.h>

int main(int argc, char **argv)
{
    static const char kinds[] = " pnbrqk";
    char line[512];
    if (argc < 3 || !tb_init(argv[1])) return 2;
    printf("%u\n", TB_LARGEST);
    while (fgets(line, sizeof line, stdin)) {
        uint64_t c[2] = {0, 0}, t[7] = {0};
        const char *s = line;
        if (*s == '#') continue;
        for (int rank = 7, file = 0; *s && *s != ' '; s++) {
            if (*s == '/') { rank--; file = 0; continue; }
            if (*s >= '1' && *s <= '8') { file += *s - '0'; continue; }
            uint64_t bit = 1ULL << (rank * 8 + file++);
            c[(*s & 32) != 0] |= bit;
            t[strchr(kinds, *s | 32) - kinds] |= bit;
        }
        bool white = s[1] == 'w';
        const char *castling = s + 3, *ep = strchr(castling, ' ') + 1;
        unsigned passed = *ep == '-' ? 0 : (unsigned)(ep[1] - '1') * 8 + (unsigned)(ep[0] - 'a');
        unsigned clock = 0;
        sscanf(strchr(ep, ' '), "%u", &clock);
        if (argv[2][0] == 'w') {
            printf("%u\n", tb_probe_wdl(c[0], c[1], t[6], t[5], t[4], t[3], t[2], t[1], 0, *castling != '-', passed, white));
            continue;
        }
        if (argv[2][1] == 'o') {
            unsigned all[TB_MAX_MOVES];
            unsigned root = tb_probe_root(c[0], c[1], t[6], t[5], t[4], t[3], t[2], t[1], clock, *castling != '-', passed, white, all);
            printf("%u", root);
            for (int i = 0; root != TB_RESULT_FAILED && all[i] != TB_RESULT_FAILED; i++) printf(" %u", all[i]);
            puts("");
            continue;
        }
        for (int way = 0; way < 4; way++) {
            static struct TbRootMoves moves;
            int told = way < 2 ? tb_probe_root_dtz(c[0], c[1], t[6], t[5], t[4], t[3], t[2], t[1], clock, *castling != '-', passed, white, way, !way, &moves)
                               : tb_probe_root_wdl(c[0], c[1], t[6], t[5], t[4], t[3], t[2], t[1], clock, *castling != '-', passed, white, way & 1, &moves);
            printf("%d", told);
            for (unsigned i = 0; told && i < moves.size; i++)
                printf(" %u:%d:%d", moves.moves[i].move, (int)moves.moves[i].tbRank, (int)moves.moves[i].tbScore);
            puts("");
        }
    }
    return 0;
}
