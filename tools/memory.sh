# How the C library takes memory for lisp_run, which is read by `run` and by the measurements: in large pages where the system has them,
# from one heap, of which nothing is given back before the end. A long text fills memory once, from its first byte to its last, and
# page faults for 4 KiB each took two fifths of its time. What the caller set counts before this.
export GLIBC_TUNABLES="glibc.malloc.hugetlb=1:glibc.malloc.mmap_threshold=1073741824:glibc.malloc.trim_threshold=1073741824${GLIBC_TUNABLES:+:$GLIBC_TUNABLES}"
