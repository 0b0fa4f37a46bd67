/* TLS by OpenSSL: a connection that is read and written as a socket is by recv(2) and send(2). */
#ifndef TLS_H
#define TLS_H

#include <stdbool.h>
#include <stddef.h>
#include <sys/types.h>

/* A certificate with its key, and the keys of its tickets, by which clients resume sessions. Or what a client
 * trusts. */
typedef struct ssl_ctx_st SSL_CTX;
/* A connection. Its socket is the caller's. */
typedef struct ssl_st SSL;

/* Reads a chain of certificates and the key of the first one, in PEM. Returns NULL, and says which file can't be used
 * and why, if that fails. */
SSL_CTX *tls_open(const char *certificate, const char *key);
void tls_close(SSL_CTX *context);

/* Begins a connection of a socket that was accepted and doesn't block. Returns NULL, and sets errno, if there is no
 * memory. */
SSL *tls_begin(SSL_CTX *context, int socket);

/* What connections to servers trust: the certificates in a file, or those of the system if it is NULL. Returns NULL,
 * and says why, if that fails. */
SSL_CTX *tls_trust(const char *authorities);

/* Begins a connection to a server, which has to show a certificate for this name or address, of a socket that doesn't
 * block. Returns NULL, and sets errno, if there is no memory. */
SSL *tls_connect(SSL_CTX *context, int socket, const char *name);

/* Shakes hands. Returns 1 once that is done, 0 if it has to wait, and -1 if it failed; `*why` says why. */
int tls_shake_hands(SSL *tls, const char **why);

/* Tells the client that nothing more comes, if there is room for that at once, and frees the connection. */
void tls_end(SSL *tls);

/* Tells the peer that nothing more comes. It may still be read. */
void tls_finish(SSL *tls);

/* Frees the connection, and doesn't tell that: what was sent isn't the whole. */
void tls_cut(SSL *tls);

/* As recv, after the handshake. Room for 16 KiB takes all that OpenSSL has read: so epoll tells of what is left. */
ssize_t tls_read(SSL *tls, void *room, size_t length);

/* As send. After EAGAIN the next call has the same bytes again, at any address, and perhaps more after them. */
ssize_t tls_write(SSL *tls, const void *bytes, size_t length);

/* Whether the call that had EAGAIN waits until the socket takes output. Otherwise it waits for input. */
bool tls_wants_output(const SSL *tls);

/* Whether some of the handshake was received, and it isn't done. */
bool tls_is_in_handshake(const SSL *tls);

#endif
