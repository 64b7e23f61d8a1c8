"""Which processor a figure was taken on, for the heads of tables."""


def processor():
    with open("/proc/cpuinfo") as told:
        names = [line.partition(":")[2].strip() for line in told if line.startswith("model name")]
    return names[0] if names else "a processor with no name"
