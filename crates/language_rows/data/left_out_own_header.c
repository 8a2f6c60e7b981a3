#include "seats.h"
