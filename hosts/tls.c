#define _GNU_SOURCE
#include "tls.h"
#include "base.h"

#include <errno.h>
#include <openssl/err.h>
#include <openssl/ssl.h>
#include <openssl/x509v3.h>
#include <string.h>

/* Why a call failed, by the first error that OpenSSL noted of it. */
static const char *reason(void) {
    unsigned long error = ERR_peek_error();
    const char *text = ERR_SYSTEM_ERROR(error) ? strerror(ERR_GET_REASON(error)) : ERR_reason_error_string(error);
    return text ? text : "OpenSSL doesn't say why";
}

/* No terminal is asked for the password of a key. */
static int no_password(char *room, int length, int is_writing, void *data) {
    (void)room, (void)length, (void)is_writing, (void)data;
    return -1;
}

/* RFC 7301: of the protocols that the client names, HTTP/1.1, or a fatal alert. */
static int select_protocol(SSL *tls, const unsigned char **chosen, unsigned char *length, const unsigned char *offered,
                           unsigned offered_length, void *data) {
    static const unsigned char ours[] = "\x08http/1.1";
    unsigned char *found;
    (void)tls, (void)data;
    if (SSL_select_next_proto(&found, length, ours, sizeof ours - 1, offered, offered_length) != OPENSSL_NPN_NEGOTIATED)
        return SSL_TLSEXT_ERR_ALERT_FATAL;
    *chosen = found;
    return SSL_TLSEXT_ERR_OK;
}

/* Shakes hands with a client of its own. So OpenSSL has loaded what connections need before the workers begin: if there
 * is no memory for that later, it never tries again. */
static bool can_shake_hands(SSL_CTX *context) {
    SSL_CTX *client_context = SSL_CTX_new(TLS_client_method());
    SSL *client = client_context ? SSL_new(client_context) : NULL, *server = SSL_new(context);
    BIO *ends[2];
    bool is_done = false;
    if (client && server && BIO_new_bio_pair(&ends[0], 0, &ends[1], 0)) {
        SSL_set_bio(client, ends[0], ends[0]);
        SSL_set_bio(server, ends[1], ends[1]);
        SSL_set_connect_state(client);
        SSL_set_accept_state(server);
        for (int i = 0; i < 64 && !is_done; i++)
            is_done = (SSL_do_handshake(client) == 1) & (SSL_do_handshake(server) == 1);
    }
    SSL_free(client);
    SSL_free(server);
    SSL_CTX_free(client_context);
    return is_done;
}

static void set_modes(SSL_CTX *context) {
    SSL_CTX_set_options(context, SSL_OP_NO_RENEGOTIATION);
    SSL_CTX_set_mode(context, SSL_MODE_ENABLE_PARTIAL_WRITE | SSL_MODE_ACCEPT_MOVING_WRITE_BUFFER |
                                  SSL_MODE_RELEASE_BUFFERS);
    /* (others have their turn also while a peer sends what is no data, as new keys) */
    SSL_CTX_clear_mode(context, SSL_MODE_AUTO_RETRY);
}

SSL_CTX *tls_open(const char *certificate, const char *key) {
    const char *file = certificate;
    ERR_clear_error();
    SSL_CTX *context = SSL_CTX_new(TLS_server_method());
    if (context) {
        SSL_CTX_set_default_passwd_cb(context, no_password);
        SSL_CTX_set_alpn_select_cb(context, select_protocol, NULL);
        set_modes(context);
        if (SSL_CTX_set_min_proto_version(context, TLS1_2_VERSION) &&
            SSL_CTX_use_certificate_chain_file(context, certificate) == 1) {
            file = key;
            if (SSL_CTX_use_PrivateKey_file(context, key, SSL_FILETYPE_PEM) == 1 &&
                SSL_CTX_check_private_key(context) == 1 && can_shake_hands(context))
                return context;
        }
    }
    complain("'%s': %s", file, reason());
    SSL_CTX_free(context);
    return NULL;
}

void tls_close(SSL_CTX *context) { SSL_CTX_free(context); }

SSL_CTX *tls_trust(const char *authorities) {
    static const unsigned char ours[] = "\x08http/1.1";
    ERR_clear_error();
    SSL_CTX *context = SSL_CTX_new(TLS_client_method());
    if (context) {
        set_modes(context);
        SSL_CTX_set_verify(context, SSL_VERIFY_PEER, NULL);
        if (SSL_CTX_set_min_proto_version(context, TLS1_2_VERSION) &&
            !SSL_CTX_set_alpn_protos(context, ours, sizeof ours - 1) &&
            (authorities ? SSL_CTX_load_verify_file(context, authorities) : SSL_CTX_set_default_verify_paths(context)))
            return context;
    }
    complain("'%s': %s", authorities ? authorities : "the certificates of the system", reason());
    SSL_CTX_free(context);
    return NULL;
}

SSL *tls_connect(SSL_CTX *context, int socket, const char *name) {
    SSL *tls = SSL_new(context);
    if (tls && SSL_set_fd(tls, socket) &&
        (X509_VERIFY_PARAM_set1_ip_asc(SSL_get0_param(tls), name) ||
         (SSL_set1_host(tls, name) && SSL_set_tlsext_host_name(tls, name)))) {
        SSL_set_connect_state(tls);
        ERR_clear_error();
        return tls;
    }
    SSL_free(tls);
    errno = ENOMEM;
    return NULL;
}

int tls_shake_hands(SSL *tls, const char **why) {
    ERR_clear_error();
    errno = 0;
    int result = SSL_do_handshake(tls), error = errno;
    if (result == 1)
        return 1;
    result = SSL_get_error(tls, result);
    if (result == SSL_ERROR_WANT_READ || result == SSL_ERROR_WANT_WRITE)
        return 0;
    long verified = SSL_get_verify_result(tls);
    *why = verified != X509_V_OK                      ? X509_verify_cert_error_string(verified)
           : result == SSL_ERROR_SYSCALL && error     ? strerror(error)
                                                      : reason();
    return -1;
}

SSL *tls_begin(SSL_CTX *context, int socket) {
    SSL *tls = SSL_new(context);
    if (!tls || !SSL_set_fd(tls, socket)) {
        SSL_free(tls);
        errno = ENOMEM;
        return NULL;
    }
    SSL_set_accept_state(tls);
    return tls;
}

void tls_finish(SSL *tls) {
    /* (after an error that ends it, the handshake isn't done either) */
    if (SSL_is_init_finished(tls))
        SSL_shutdown(tls); /* if it can't be told, the peer still sees that the socket is closed */
    ERR_clear_error();
}

void tls_end(SSL *tls) {
    tls_finish(tls);
    SSL_free(tls);
}

void tls_cut(SSL *tls) { SSL_free(tls); }

/* What a call that didn't succeed returns. */
static ssize_t failure(const SSL *tls, int result) {
    int error = errno;
    switch (SSL_get_error(tls, result)) {
    case SSL_ERROR_ZERO_RETURN: return 0;
    case SSL_ERROR_WANT_READ:
    case SSL_ERROR_WANT_WRITE: errno = EAGAIN; break;
    case SSL_ERROR_SYSCALL: errno = error ? error : ECONNRESET; break;
    default: errno = EPROTO;
    }
    return -1;
}

ssize_t tls_read(SSL *tls, void *room, size_t length) {
    size_t count;
    ERR_clear_error(); /* SSL_get_error asks for the errors of the last call alone */
    errno = 0;
    int result = SSL_read_ex(tls, room, length, &count);
    return result > 0 ? (ssize_t)count : failure(tls, result);
}

/* A call of OpenSSL writes one record, of at most 16 KiB. */
ssize_t tls_write(SSL *tls, const void *bytes, size_t length) {
    size_t sent = 0, count;
    while (sent < length) {
        ERR_clear_error();
        errno = 0;
        int result = SSL_write_ex(tls, (const char *)bytes + sent, length - sent, &count);
        if (result <= 0) {
            ssize_t failed = failure(tls, result);
            return failed < 0 && errno == EAGAIN && sent > 0 ? (ssize_t)sent : -1;
        }
        sent += count;
    }
    return (ssize_t)sent;
}

bool tls_wants_output(const SSL *tls) { return SSL_want_write(tls); }

bool tls_is_in_handshake(const SSL *tls) { return SSL_in_init(tls) && BIO_number_read(SSL_get_rbio(tls)) > 0; }
