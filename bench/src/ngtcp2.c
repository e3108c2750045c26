// ngtcp2's reading and writing, with its record kept here.
#include <ngtcp2/ngtcp2.h>

static const ngtcp2_transport_params_type FROM_SERVER = NGTCP2_TRANSPORT_PARAMS_TYPE_ENCRYPTED_EXTENSIONS;
static ngtcp2_transport_params kept;

// The code of reading into `kept`; 0 if accepted.
int peer_read(const uint8_t *src, size_t len) {
    return ngtcp2_decode_transport_params(&kept, FROM_SERVER, src, len);
}

// How many bytes writing `kept` stores.
ptrdiff_t peer_write(uint8_t *out, size_t len) {
    return ngtcp2_encode_transport_params(out, len, FROM_SERVER, &kept);
}

const char *peer_version(void) {
    return NGTCP2_VERSION;
}
