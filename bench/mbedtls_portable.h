// mbedTLS's own default configuration without the parts that use special instructions: AES in plain C.
#include "mbedtls/config.h"

#undef MBEDTLS_AESNI_C
#undef MBEDTLS_PADLOCK_C
