/* public.h: what programs may call. It is seen outside of the library, and nothing else. */
#ifndef KEYRETAIN_PUBLIC_H
#define KEYRETAIN_PUBLIC_H

#pragma GCC visibility push(default)
#include "library/keyretain.h"
#pragma GCC visibility pop

#endif
