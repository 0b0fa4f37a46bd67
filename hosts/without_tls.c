/* For a build without OpenSSL: tools/build_host --without-tls. No certificate is opened, so no connection begins. */
#include "base.h"
#include "tls.h"

#include <errno.h>

SSL_CTX *tls_open(const char *certificate, const char *key) {
    (void)key;
    complain("'%s': this program was built without TLS", certificate);
    return NULL;
}

SSL *tls_begin(SSL_CTX *context, int socket) {
    (void)context, (void)socket;
    errno = ENOTSUP;
    return NULL;
}

SSL_CTX *tls_trust(const char *authorities) { return tls_open(authorities ? authorities : "tls", NULL); }

SSL *tls_connect(SSL_CTX *context, int socket, const char *name) {
    (void)name;
    return tls_begin(context, socket);
}

int tls_shake_hands(SSL *tls, const char **why) {
    (void)tls;
    *why = "this program was built without TLS";
    return -1;
}

ssize_t tls_read(SSL *tls, void *room, size_t length) {
    (void)tls, (void)room, (void)length;
    errno = ENOTSUP;
    return -1;
}

ssize_t tls_write(SSL *tls, const void *bytes, size_t length) {
    (void)tls, (void)bytes, (void)length;
    errno = ENOTSUP;
    return -1;
}

void tls_close(SSL_CTX *context) { (void)context; }
void tls_end(SSL *tls) { (void)tls; }
void tls_cut(SSL *tls) { (void)tls; }
void tls_finish(SSL *tls) { (void)tls; }
bool tls_wants_output(const SSL *tls) { return (void)tls, false; }
bool tls_is_in_handshake(const SSL *tls) { return (void)tls, false; }
