#include "library.h"
#include <dlfcn.h>
#include <stdio.h>
#include <stdlib.h>
#include <string.h>

#define NAME(kind, name) #name,
const char *const library_names[LIBRARY_CALLS] = {EACH_CALL(NAME)};

unsigned library_call(const char *name)
{
    unsigned i = 0;
    while (i < LIBRARY_CALLS && strcmp(library_names[i], name) != 0) i++;
    return i;
}

void library_load(library *to, const char *path, unsigned char has[LIBRARY_CALLS])
{
    unsigned i = 0;
    void *handle = dlopen(path, RTLD_NOW | RTLD_LOCAL);
    if (!handle) {
        fprintf(stderr, "%s\n", dlerror());
        exit(2);
    }
#define LOAD(kind, name) to->name = (__typeof__(to->name))dlsym(handle, "mirror_" #name), has[i++] = to->name != NULL;
    EACH_CALL(LOAD)
}
