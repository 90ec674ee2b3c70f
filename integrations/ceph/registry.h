// The registry of plugins, as an osd has it, for a program that calls plugins itself. Plugins find it in the program (-rdynamic).
#pragma once
#include "erasure_code.h"

// Starts what Ceph's own plugins need: they write their log by it. Whether that could be done.
bool start_ceph();
