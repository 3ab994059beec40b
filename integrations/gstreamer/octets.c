/* The octets of a buffer, and the number of the address that it came from. */
#include "session.h"

#include <gst/net/gstnetaddressmeta.h>

gboolean octets_map(Octets *octets, GstBuffer *buffer)
{
    octets->buffer = buffer;
    octets->copy = NULL;
    if (gst_buffer_n_memory(buffer) > 1) {
        octets->size = gst_buffer_get_size(buffer);
        octets->copy = octets->size <= sizeof octets->room ? octets->room : g_malloc(octets->size);
        octets->data = octets->copy;
        gst_buffer_extract(buffer, 0, octets->copy, octets->size);
        return TRUE;
    }
    if (!gst_buffer_map(buffer, &octets->map, GST_MAP_READ))
        return FALSE;
    octets->data =
        octets->map.data != NULL ? octets->map.data : octets->room; /* never NULL, even if empty */
    octets->size = octets->map.size;
    return TRUE;
}

void octets_unmap(Octets *octets)
{
    if (octets->copy == NULL)
        gst_buffer_unmap(octets->buffer, &octets->map);
    else if (octets->copy != octets->room)
        g_free(octets->copy);
}

static guint64 rotated(guint64 word, guint by)
{
    return word << by | word >> (64 - by);
}

static void sip_rounds(guint64 v[4], guint rounds)
{
    while (rounds-- > 0) {
        v[0] += v[1];
        v[1] = rotated(v[1], 13) ^ v[0];
        v[0] = rotated(v[0], 32);
        v[2] += v[3];
        v[3] = rotated(v[3], 16) ^ v[2];
        v[0] += v[3];
        v[3] = rotated(v[3], 21) ^ v[0];
        v[2] += v[1];
        v[1] = rotated(v[1], 17) ^ v[2];
        v[2] = rotated(v[2], 32);
    }
}

/* SipHash-2-4 of whole words. */
static guint64 sip_hash(const guint64 key[2], const guint64 *words, gsize count)
{
    guint64 v[4] = {
        key[0] ^ G_GUINT64_CONSTANT(0x736f6d6570736575), key[1] ^ G_GUINT64_CONSTANT(0x646f72616e646f6d),
        key[0] ^ G_GUINT64_CONSTANT(0x6c7967656e657261), key[1] ^ G_GUINT64_CONSTANT(0x7465646279746573)};
    for (gsize at = 0; at <= count; at++) {
        const guint64 word = at < count ? words[at] : (guint64)(count * 8) << 56;
        v[3] ^= word;
        sip_rounds(v, 2);
        v[0] ^= word;
    }
    v[2] ^= 0xff;
    sip_rounds(v, 4);
    return v[0] ^ v[1] ^ v[2] ^ v[3];
}

guint64 peer_of(JalweddSession *self, GstBuffer *buffer, GSocketAddress **address)
{
    GstNetAddressMeta *meta = gst_buffer_get_net_address_meta(buffer);
    GInetAddress *host;
    const guint8 *bytes;
    guint16 port;
    *address = NULL;
    if (meta == NULL || !G_IS_INET_SOCKET_ADDRESS(meta->addr))
        return 0;
    *address = meta->addr;
    host = g_inet_socket_address_get_address(G_INET_SOCKET_ADDRESS(meta->addr));
    port = g_inet_socket_address_get_port(G_INET_SOCKET_ADDRESS(meta->addr));
    bytes = g_inet_address_to_bytes(host);
    if (g_inet_address_get_family(host) == G_SOCKET_FAMILY_IPV4)
        return (guint64)GST_READ_UINT32_BE(bytes) << 16 | port;
    /* its network (/64) is the origin that a guard goes by */
    const guint64 words[3] = {GST_READ_UINT64_BE(bytes), GST_READ_UINT64_BE(bytes + 8), port};
    return (sip_hash(self->key, words, 1) << 16 | (sip_hash(self->key, words, 3) & 0xffff)) & ~OWN_PEER;
}
