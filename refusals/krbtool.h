/* The commands of the program krbtool, their input, and their results. */
#ifndef KRBTOOL_H
#define KRBTOOL_H
#include "command.h"
#include "real_parts.h" /* written by refusals/real_parts */

#define PROGRAM "krbtool"
#define MEMORY_LINE "krbtool: memory\n"
#define READ_LINE "krbtool: io\n"
#define WRITE_LINE "krbtool: io\n"

#define USAGE "usage: krbtool check | seal ETYPE KEYHEX USAGE CONFHEX | open ETYPE KEYHEX USAGE\n"

static const struct command commands[] = {
    {{"check"}, part_18, 1, 0, "", part_18},
    {{"seal", "18", KEY_18, "2", CONFOUNDER_18}, part_18, 1, 0, "", sealed_18},
    {{"open", "18", KEY_18, "2"}, sealed_18, 1, 0, "", part_18},
    {{"seal", "17", KEY_17, "2", CONFOUNDER_17}, part_17, 1, 0, "", sealed_17},
    {{"open", "17", KEY_17, "2"}, sealed_17, 1, 0, "", part_17},
    {{"seal", "16", KEY_16, "2", CONFOUNDER_16}, part_16, 1, 0, "", sealed_16},
    {{"open", "16", KEY_16, "2"}, sealed_16, 1, 0, "", part_16},
    {{"seal", "19", KEY_19, "2", CONFOUNDER_19}, part_19, 1, 0, "", sealed_19},
    {{"open", "19", KEY_19, "2"}, sealed_19, 1, 0, "", part_19},
    {{"seal", "20", KEY_20, "2", CONFOUNDER_20}, part_20, 1, 0, "", sealed_20},
    {{"open", "20", KEY_20, "2"}, sealed_20, 1, 0, "", part_20},
    {{"check"}, "637e", 1, 1, "krbtool: der TruncatedData\n", ""},
    {{"open", "18", KEY_18, "3"}, sealed_18, 1, 1, "krbtool: crypto IntegrityCheck\n", ""},
    {{"open", "3", "00", "2"}, sealed_18, 1, 1, "krbtool: crypto AlgorithmIdentifier\n", ""},
    {{"seal", "18", KEY_18, "2", CONFOUNDER_16}, part_18, 1, 2, USAGE, ""},
    {{"check", "check"}, part_18, 1, 2, USAGE, ""},
};
#endif
