# Memory that is refused, over the plans of tests/hostile: each allocation in turn, over files and over disks in memory.
counted tests/hostile/refuse
