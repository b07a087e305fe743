// include/iolwarch.h as a C++ program sees it: it compiles without a warning, and its calls link under their C names.
#include "iolwarch.h"

#include <cstdio>

static iolwarch_workspace work;

int main()
{
    static const char file[] = "MRE,1,1,1,0\nP,1,1,0,0,0\nH,1,5\nG,1,5\n";
    const iolwarch_month open = {1, 1, 1, 0, 1};
    iolwarch_workspace_begin(&work);
    const bool fed = iolwarch_workspace_feed(&work, reinterpret_cast<const uint8_t *>(file), sizeof file - 1) == 0;
    const iolwarch_finished end = iolwarch_workspace_finish(&work);
    const bool good = fed && end.number == 0 && work.text[0] == 'A' && iolwarch_close(open).number == 20;
    std::printf("the header in C++: %s\n", good ? "good" : "FAILED");
    return good ? 0 : 1;
}
