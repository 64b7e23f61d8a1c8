/* An end over TLS, by OpenSSL's memory BIOs: octets of the socket go through one SSL, and the decrypted octets are fed to the
 * end. Both sides show a certificate, and accept only certificates of the given authority (docs/TLS.md).
 *
 *   tls --side server|client --certificate FILE --key FILE --authority FILE --peer NAME
 *       [--port 3782] [--octets 5] [--wait SECONDS]
 *
 * The server takes one byte connection, and prints the port that it listens on (0 takes a free one). The client asks for a
 * connection, sends data of OCTETS octets, and releases it. A peer whose certificate does not have the NAME is refused. The
 * status is 0 if the connection was released, and otherwise 3. */
#define _POSIX_C_SOURCE 200809L
#include "osi.h"

#include <arpa/inet.h>
#include <errno.h>
#include <netinet/in.h>
#include <openssl/err.h>
#include <openssl/ssl.h>
#include <poll.h>
#include <stdio.h>
#include <stdlib.h>
#include <string.h>
#include <sys/socket.h>
#include <unistd.h>

#define PIECE 65536
#define MOST_WAITING 262144

/* One end, its socket, and the SSL between them. */
struct secure {
    osi_end end;
    SSL *ssl;
    BIO *came, *goes;      /* encrypted octets: received ones that are not decrypted yet, and those to send */
    int socket;
    bool calls, released;
    size_t octets;         /* how much data the client sends */
    uint8_t piece[PIECE];  /* encrypted octets that the socket has not taken yet */
    size_t sent, length;   /* how many of them it took, and how many there are */
};

static const char *option(int count, char **words, const char *name, const char *otherwise)
{
    for (int i = 1; i + 1 < count; i++)
        if (strcmp(words[i], name) == 0)
            return words[i + 1];
    return otherwise;
}

/* ---- the user of the connection */

static void print(const char *what, osi_octets text)
{
    printf("%s%.*s\n", what, (int)text.length, (const char *)text.at);
    fflush(stdout);
}

static void shown_to_client(struct secure *s, const osi_indication *i)
{
    if (i->tag == OSI_CONNECTED) {
        uint8_t *data = calloc(s->octets, 1);
        print("connected: ", i->user_data);
        if (data == NULL || osi_data(&s->end, i->reference, data, s->octets) != OSI_OK ||
            osi_release(&s->end, i->reference, OSI_NO_DATA) != OSI_OK)
            osi_broken(&s->end);
        free(data);
    } else if (i->tag == OSI_RELEASED) {
        print("released", i->user_data);
        s->released = true;
    }
}

static void shown_to_server(struct secure *s, const osi_indication *i)
{
    static const osi_sides asker = {OSI_ASKER, OSI_ASKER, OSI_ASKER, OSI_ASKER};
    static const uint8_t answer[] = "a gateway";
    if (i->tag == OSI_CONNECT) {
        print("a connection is asked for: ", i->user_data);
        if (osi_accept(&s->end, i->reference, OSI_HALF_DUPLEX, 0, &asker, answer, sizeof answer - 1) != OSI_OK)
            osi_broken(&s->end);
    } else if (i->tag == OSI_DATA) {
        printf("data: %zu octets\n", i->user_data.length);
    } else if (i->tag == OSI_RELEASE) {
        print("a release is asked for", i->user_data);
        s->released = osi_release_accept(&s->end, i->reference, OSI_NO_DATA) == OSI_OK;
    }
}

static void show_all(struct secure *s)
{
    osi_indication shown;
    while (osi_next(&s->end, &shown))
        s->calls ? shown_to_client(s, &shown) : shown_to_server(s, &shown);
}

static void feed_all(struct secure *s, const uint8_t *piece, size_t length)
{
    while (length > 0) {
        osi_fed fed;
        osi_feed(&s->end, piece, length, &fed);
        piece += fed.used;
        length -= fed.used;
        show_all(s);
    }
}

/* ---- between the end and the socket */

/* Decrypts all received octets: those of the handshake stay in the SSL, and the peer's data goes to the end. False once the
 * peer has closed, or if a certificate or an octet is bad. */
static bool decipher(struct secure *s)
{
    static uint8_t plain[PIECE];
    for (;;) {
        ERR_clear_error();
        const int count = SSL_read(s->ssl, plain, sizeof plain);
        if (count <= 0)
            return SSL_get_error(s->ssl, count) == SSL_ERROR_WANT_READ;
        feed_all(s, plain, (size_t)count);
    }
}

/* Encrypts what the end has to send once the handshake is done, up to a bound at a time. */
static void encipher(struct secure *s)
{
    while (SSL_is_init_finished(s->ssl) && osi_wants_write(&s->end) && BIO_pending(s->goes) < PIECE) {
        osi_octets octets;
        osi_outgoing(&s->end, &octets);
        const int count = SSL_write(s->ssl, octets.at, octets.length < PIECE ? (int)octets.length : PIECE);
        if (count <= 0)
            return;
        osi_taken(&s->end, (size_t)count);
    }
}

static bool comes_later(void)
{
    return errno == EAGAIN || errno == EWOULDBLOCK || errno == EINTR;
}

/* Writes encrypted octets, as many as the socket takes. False if it broke. */
static bool transmit(struct secure *s)
{
    if (s->sent == s->length) {
        const int count = BIO_read(s->goes, s->piece, sizeof s->piece);
        s->sent = 0;
        s->length = count > 0 ? (size_t)count : 0;
    }
    const ssize_t count = send(s->socket, s->piece + s->sent, s->length - s->sent, MSG_NOSIGNAL | MSG_DONTWAIT);
    if (count > 0)
        s->sent += (size_t)count;
    return count >= 0 || comes_later();
}

/* Reads encrypted octets once, and decrypts them. False if the byte connection is over. */
static bool receive(struct secure *s)
{
    static uint8_t piece[PIECE];
    const ssize_t count = recv(s->socket, piece, sizeof piece, MSG_DONTWAIT);
    if (count <= 0)
        return count < 0 && comes_later();
    return BIO_write(s->came, piece, (int)count) == count && decipher(s);
}

static bool has_ciphered(struct secure *s)
{
    return s->sent < s->length || BIO_pending(s->goes) > 0;
}

/* Waits for the socket once, and reads and writes. False once there is nothing left to do. */
static bool turn(struct secure *s, int patience)
{
    osi_octets octets;
    encipher(s);
    osi_outgoing(&s->end, &octets);
    const int reads = octets.length <= MOST_WAITING ? POLLIN : 0, writes = has_ciphered(s) ? POLLOUT : 0;
    struct pollfd waits = {s->socket, (short)(reads | writes), 0};
    if (poll(&waits, 1, patience) <= 0)
        return false;
    if ((waits.revents & (POLLIN | POLLERR | POLLHUP)) && !receive(s))
        return false;
    encipher(s);
    return (!has_ciphered(s) || transmit(s)) && (has_ciphered(s) || !osi_is_over(&s->end));
}

/* The name in the peer's certificate, if it showed one. */
static const char *name_of_peer(struct secure *s)
{
    static char name[256];
    X509 *peer = SSL_get1_peer_certificate(s->ssl);
    strcpy(name, "nobody");
    if (peer != NULL)
        X509_NAME_get_text_by_NID(X509_get_subject_name(peer), NID_commonName, name, sizeof name);
    X509_free(peer);
    return name;
}

/* Says why the session was not released. */
static void complain(struct secure *s)
{
    const long verdict = SSL_get_verify_result(s->ssl);
    const unsigned long error = ERR_peek_last_error();
    const char *why = error != 0 ? ERR_reason_error_string(error) : "the byte connection is over";
    printf("no session: %s\n", verdict != X509_V_OK ? X509_verify_cert_error_string(verdict) : why);
}

/* Runs until the byte connection is over. After the end's last octets it sends TLS's own notice that no more come, or why
 * there is no session. */
static void run(struct secure *s, int patience)
{
    bool goes_on = true, told = false;
    SSL_do_handshake(s->ssl);
    while (goes_on) {
        goes_on = turn(s, patience);
        if (!told && SSL_is_init_finished(s->ssl))
            told = printf("%s with %s\n", SSL_get_version(s->ssl), name_of_peer(s)) > 0;
        fflush(stdout);
    }
    if (!s->released)
        complain(s);
    else
        SSL_shutdown(s->ssl);
    transmit(s);
    osi_broken(&s->end);
    show_all(s);
}

/* ---- opening */

/* This side's identity, and whom it trusts: TLS 1.2 or later, certificates of both sides, no renegotiation. */
static SSL_CTX *context(int count, char **words)
{
    SSL_CTX *made = SSL_CTX_new(TLS_method());
    const char *certificate = option(count, words, "--certificate", ""), *key = option(count, words, "--key", "");
    if (made == NULL)
        return NULL;
    SSL_CTX_set_verify(made, SSL_VERIFY_PEER | SSL_VERIFY_FAIL_IF_NO_PEER_CERT, NULL);
    SSL_CTX_set_options(made, SSL_OP_NO_RENEGOTIATION);
    SSL_CTX_set_mode(made, SSL_MODE_ENABLE_PARTIAL_WRITE | SSL_MODE_ACCEPT_MOVING_WRITE_BUFFER);
    if (SSL_CTX_set_min_proto_version(made, TLS1_2_VERSION) == 1 &&
        SSL_CTX_load_verify_locations(made, option(count, words, "--authority", ""), NULL) == 1 &&
        SSL_CTX_use_certificate_chain_file(made, certificate) == 1 &&
        SSL_CTX_use_PrivateKey_file(made, key, SSL_FILETYPE_PEM) == 1 && SSL_CTX_check_private_key(made) == 1)
        return made;
    SSL_CTX_free(made);
    return NULL;
}

/* An SSL that reads from one BIO and writes to another, and accepts only the peer of this name. (For OpenSSL, no name means
 * that every peer is accepted.) */
static bool open_ssl(struct secure *s, SSL_CTX *context, const char *peer)
{
    s->ssl = SSL_new(context);
    s->came = BIO_new(BIO_s_mem());
    s->goes = BIO_new(BIO_s_mem());
    if (s->ssl == NULL || s->came == NULL || s->goes == NULL || *peer == 0 || SSL_set1_host(s->ssl, peer) != 1)
        return false;
    SSL_set_bio(s->ssl, s->came, s->goes);
    s->calls ? SSL_set_connect_state(s->ssl) : SSL_set_accept_state(s->ssl);
    return true;
}

static bool open_end(struct secure *s)
{
    const osi_terms terms = {OSI_CLASS_0, 13, 15};
    osi_opening asked = OSI_OPENING;
    uint16_t connection;
    asked.user_data.at = (const uint8_t *)"who is there?";
    asked.user_data.length = 13;
    if (!s->calls)
        return osi_called(&s->end, &terms) == OSI_OK;
    return osi_caller(&s->end, &terms) == OSI_OK && osi_connect(&s->end, &asked, &connection) == OSI_OK;
}

static int connected(bool calls, const char *port)
{
    struct sockaddr_in place = {.sin_family = AF_INET, .sin_port = htons((uint16_t)atoi(port))};
    socklen_t size = sizeof place;
    int yes = 1, made = socket(AF_INET, SOCK_STREAM, 0);
    place.sin_addr.s_addr = htonl(INADDR_LOOPBACK);
    if (calls)
        return connect(made, (struct sockaddr *)&place, size) == 0 ? made : -1;
    setsockopt(made, SOL_SOCKET, SO_REUSEADDR, &yes, sizeof yes);
    if (bind(made, (struct sockaddr *)&place, size) != 0 || listen(made, 1) != 0)
        return -1;
    getsockname(made, (struct sockaddr *)&place, &size);
    printf("port %d\n", ntohs(place.sin_port));
    fflush(stdout);
    const int came = accept(made, NULL, NULL);
    close(made);
    return came;
}

int main(int count, char **words)
{
    static struct secure s = {.end = OSI_END};
    const int patience = atoi(option(count, words, "--wait", "10")) * 1000;
    s.calls = strcmp(option(count, words, "--side", "client"), "client") == 0;
    s.octets = strtoul(option(count, words, "--octets", "5"), NULL, 10);
    SSL_CTX *own = context(count, words);
    if (own == NULL || !open_ssl(&s, own, option(count, words, "--peer", "")) || !open_end(&s)) {
        fputs("tls: it wants --certificate, --key, --authority and --peer\n", stderr);
        ERR_print_errors_fp(stderr);
        return 2;
    }
    s.socket = connected(s.calls, option(count, words, "--port", "3782"));
    if (s.socket < 0) {
        perror("tls");
        return 2;
    }
    run(&s, patience);
    close(s.socket);
    osi_free(&s.end);
    SSL_free(s.ssl);
    SSL_CTX_free(own);
    return s.released ? 0 : 3;
}
