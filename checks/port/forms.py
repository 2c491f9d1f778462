#!/usr/bin/env python3
"""Prints a C program that tries each call of kernel.h: what it hands in, and what it gives.

    checks/port/forms.py > forms.c

The program has a port of its own, which answers E_OK with the value 77, or E_ID. Its status is 0 if each call hands in
the function code of its service and its arguments in their order, answers that code, or the count, and writes the value
exactly at E_OK.
"""

import sys
from pathlib import Path

sys.dont_write_bytecode = True  # the folders of the checks stay as they are
sys.path[0] = str(Path(__file__).resolve().parents[1])  # the folder `checks`, whose folders are packages

from common.services import SERVICES  # noqa: E402

COUNTS = ("can_act", "can_wup")  # they return the count
FRONT = """#include "kernel.h"

#include <stdio.h>
#include <stdlib.h>
#include <string.h>

enum { VALUE = 77, UNTOUCHED = 5 };

static int32_t made[5], answer;
static int failed;

ER fmp_service(uint8_t service, int32_t a, int32_t b, int32_t c, int32_t d, int32_t *value)
{
    const int32_t now[5] = { service, a, b, c, d };
    memcpy(made, now, sizeof made);
    if (answer == E_OK) {
        *value = VALUE;
    }
    return answer;
}

void fmp_stop(uint8_t fault)
{
    exit(fault);
}

void fmp_poll(void)
{
}

static void look(const char *name, const int32_t *wanted, int32_t wanted_code, int32_t code, int32_t wanted_out,
                 intptr_t out)
{
    if (memcmp(made, wanted, sizeof made) != 0 || code != wanted_code || out != wanted_out) {
        failed++;
        printf("FAILED: %s at %d\\n", name, (int)answer);
    }
}

static void try_all(void)
{
    const int32_t out = answer == E_OK ? VALUE : UNTOUCHED;
    const int32_t count = answer == E_OK ? VALUE : answer;
"""
BACK = """}

int main(void)
{
    answer = E_OK;
    try_all();
    answer = E_ID;
    try_all();
    return failed != 0;
}
"""


def out_type(name):
    return "FLGPTN" if name.endswith("flg") else "intptr_t" if name.endswith("dtq") else "int32_t"


def attempt(code, service):
    """The lines that try one call."""
    numbers = iter(range(11, 15))
    words = ["&given" if word == "&" else str(next(numbers)) for word in service.form]
    handed = [word for word in words if word != "&given"]
    wanted = ", ".join([str(code), *handed, *"0000"][:5])
    has_out = "&" in service.form
    lines = [f"const int32_t wanted[5] = {{ {wanted} }};"]
    if has_out:
        lines.append(f"{out_type(service.name)} given = UNTOUCHED;")
    lines.append(f"const int32_t code = {service.name}({', '.join(words)});")
    result = "count" if service.name in COUNTS else "answer"
    outs = "out, (intptr_t)given" if has_out else "0, 0"
    lines.append(f"look(\"{service.name}\", wanted, {result}, code, {outs});")
    return "".join(f"        {line}\n" for line in lines)


if __name__ == "__main__":
    tries = (f"    {{\n{attempt(code, service)}    }}\n" for code, service in enumerate(SERVICES, 1))
    print(FRONT + "".join(tries) + BACK, end="")
