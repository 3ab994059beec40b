/* Two sources with one SSRC (RFC 3550, 8.2). The library resolves collisions with the SSRCs of this host.
 * Here those between two other sources are resolved, by the addresses that GstNetAddressMeta names. */
#include "session.h"

void collision_keep_address(JalweddSource *source, guint64 peer, GSocketAddress *address)
{
    if (source->rtp_from != NULL || address == NULL)
        return;
    source->rtp_peer = peer;
    g_set_object(&source->rtp_from, address);
}

gboolean collision_allows(JalweddSession *self, JalweddSource *source, guint64 peer, GSocketAddress *address)
{
    if (source == NULL || source->internal || source->rtp_from == NULL || address == NULL ||
        source->rtp_peer == peer)
        return TRUE;
    if (!self->favor_new && source->role != JALWEDD_AWAY)
        return FALSE; /* the one that was heard first goes on */
    source->rtp_peer = peer;
    g_set_object(&source->rtp_from, address);
    return TRUE;
}

void collision_tell(JalweddSession *self, guint32 ssrc, guint32 other, GQueue *actions)
{
    GST_INFO_OBJECT(self, "%08x collides, %08x is the new one", ssrc, other);
    action_collision(actions, source_find(self, ssrc), ssrc, other);
}
