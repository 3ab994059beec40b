/* The plugin: the elements jalweddsession and jalweddbin. */
#include "bin.h"
#include "session.h"

GST_DEBUG_CATEGORY(jalwedd_debug);

static gboolean plugin_init(GstPlugin *plugin)
{
    GST_DEBUG_CATEGORY_INIT(jalwedd_debug, "jalwedd", 0, "RTP sessions with proved RTCP");
    return gst_element_register(plugin, "jalweddsession", GST_RANK_NONE, JALWEDD_TYPE_SESSION) &&
           gst_element_register(plugin, "jalweddbin", GST_RANK_NONE, JALWEDD_TYPE_BIN);
}

GST_PLUGIN_DEFINE(GST_VERSION_MAJOR, GST_VERSION_MINOR, jalwedd,
                  "RTP sessions with proved RTCP (RFC 3550, AVP)", plugin_init, VERSION, GST_LICENSE_UNKNOWN,
                  "Jalwedd", GST_PACKAGE_ORIGIN)
