"""Says in a few lines on which machine the benchmark ran, and when.
Assumes Linux, and that gcc built the plain side."""

import datetime
import os
import platform
import subprocess


def first_line(*command):
    ran = subprocess.run(command, stdout=subprocess.PIPE, text=True,
                         check=True)
    return ran.stdout.splitlines()[0]


def processor():
    """The fields of the first processor, by name."""
    fields = {}
    with open("/proc/cpuinfo", encoding="utf-8") as lines:
        for line in lines:
            name, colon, value = line.partition(":")
            if not colon:
                break
            fields[name.strip()] = value.strip()
    return fields


def machine_lines(counting):
    fields = processor()
    kind = ", a virtual machine" if "hypervisor" in fields["flags"] else ""
    lines = [
        f"- Processor: {fields['model name']}, family {fields['cpu family']},"
        f" model {fields['model']}; {os.cpu_count()} cores{kind}.",
        f"- Compiler of plain C: {first_line('gcc', '--version')}, -O3.",
        f"- Kernel: {platform.system()} {platform.release()}.",
        f"- Date: {datetime.date.today().isoformat()}. Load of the machine"
        f" when the run began: {os.getloadavg()[0]:.2f}.",
    ]
    if counting:
        lines.append(f"- Counts: {first_line('valgrind', '--version')}.")
    else:
        lines.append("- Counts: none, since valgrind is not installed.")
    return lines
