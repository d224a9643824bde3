/* TLS for session.h by OpenSSL, 1.1.1 and later: the two callbacks, tls_read and tls_write, whose context is an SSL_CTX. It is not part of
 * the library: it needs the headers of OpenSSL, and -lssl -lcrypto when you link.
 *
 *     options.read = tls_read;
 *     options.write = tls_write;
 *     options.context = tls_of_ca("ca.pem");
 *
 * The server's certificate has to be for the name or the address in the connection string. The program has to ignore SIGPIPE, which the
 * system raises at a write to a closed connection. */
#ifndef DIRWOLLEU_TLS_H
#define DIRWOLLEU_TLS_H

#include "session.h"

#include <arpa/inet.h>
#include <errno.h>
#include <limits.h>
#include <sys/socket.h>
#include <openssl/err.h>
#include <openssl/ssl.h>
#include <openssl/x509v3.h>

/* A context that admits servers whose certificates an authority of this file signed; NULL if the file has none. */
static inline SSL_CTX *tls_of_ca(const char *file)
{
    SSL_CTX *made = SSL_CTX_new(TLS_client_method());
    if (made != NULL && (SSL_CTX_load_verify_locations(made, file, NULL) != 1 || SSL_CTX_set_min_proto_version(made, TLS1_2_VERSION) != 1)) {
        SSL_CTX_free(made);
        made = NULL;
    }
    if (made != NULL) {
        SSL_CTX_set_verify(made, SSL_VERIFY_PEER, NULL);
        SSL_CTX_set_mode(made, SSL_MODE_ENABLE_PARTIAL_WRITE | SSL_MODE_ACCEPT_MOVING_WRITE_BUFFER);
    }
    return made;
}

static inline void tls_release(void *state)
{
    SSL_free((SSL *)state);
}

/* The certificate has to be for this name, or this address. */
static inline bool tls_expect(SSL *ssl, const char *host)
{
    unsigned char address[16];
    if (inet_pton(AF_INET, host, address) == 1 || inet_pton(AF_INET6, host, address) == 1) {
        return X509_VERIFY_PARAM_set1_ip_asc(SSL_get0_param(ssl), host) == 1;
    }
    return SSL_set1_host(ssl, host) == 1 && SSL_set_tlsext_host_name(ssl, host) == 1;
}

/* The connection, which the first call begins; OpenSSL's earlier errors are cleared. NULL if it cannot begin. */
static inline SSL *tls_of(dws_wire *wire, void *context)
{
    if (wire->state == NULL) {
        SSL *ssl = SSL_new((SSL_CTX *)context);
        if (ssl == NULL || SSL_set_fd(ssl, wire->socket) != 1 || !tls_expect(ssl, wire->host)) {
            SSL_free(ssl);
            errno = ENOMEM;
            return NULL;
        }
        SSL_set_connect_state(ssl);
        wire->state = ssl;
        wire->release = tls_release;
    }
    ERR_clear_error();
    return (SSL *)wire->state;
}

/* The result of a read or a write, as the system would return it. */
static inline ssize_t tls_answer(SSL *ssl, dws_wire *wire, int count)
{
    int error = count > 0 ? SSL_ERROR_NONE : SSL_get_error(ssl, count);
    if (error == SSL_ERROR_NONE) {
        return count;
    }
    if (error == SSL_ERROR_WANT_READ || error == SSL_ERROR_WANT_WRITE) {
        wire->wants = error == SSL_ERROR_WANT_READ ? POLLIN : POLLOUT;
        errno = EAGAIN;
        return -1;
    }
    if (error == SSL_ERROR_ZERO_RETURN) {
        return 0;
    }
    long verified = SSL_get_verify_result(ssl);
    if (verified != X509_V_OK) {
        wire->words = X509_verify_cert_error_string(verified);
    } else if (error == SSL_ERROR_SSL) {
        wire->words = ERR_reason_error_string(ERR_peek_error());
    }
    return -1;
}

static inline ssize_t tls_read(dws_wire *wire, void *room, size_t size, void *context)
{
    SSL *ssl = tls_of(wire, context);
    return ssl == NULL ? -1 : tls_answer(ssl, wire, SSL_read(ssl, room, size < INT_MAX ? (int)size : INT_MAX));
}

static inline ssize_t tls_write(dws_wire *wire, const void *bytes, size_t size, void *context)
{
    SSL *ssl = tls_of(wire, context);
    return ssl == NULL ? -1 : tls_answer(ssl, wire, SSL_write(ssl, bytes, size < INT_MAX ? (int)size : INT_MAX));
}

#endif
