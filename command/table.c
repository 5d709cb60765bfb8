/* The subcommands. NAME_subcommand is in NAME.c. */
#include "table.h"

extern const struct subcommand format_subcommand, panel_subcommand, index_subcommand, explain_subcommand, page_subcommand, salvage_subcommand,
    restore_subcommand, flow_subcommand, unflow_subcommand, check_subcommand, audit_subcommand, night_subcommand, help_subcommand, completion_subcommand;

const struct subcommand *const TABLE[] = {
    &format_subcommand,  &panel_subcommand, &index_subcommand,  &explain_subcommand, &page_subcommand,  &salvage_subcommand,
    &restore_subcommand, &flow_subcommand,  &unflow_subcommand, &check_subcommand,   &audit_subcommand, &night_subcommand,
    &help_subcommand,    &completion_subcommand, NULL,
};
