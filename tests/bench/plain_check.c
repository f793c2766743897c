/* The check of the model, which is plain C for speed as it stands.
   Assumes nothing more than the model does. */

#include "../model/model.h"
#include "plain.h"

uint64_t plain_check(const uint8_t *file, size_t length)
{
    return model_check(file, length);
}
