/* A back-to-back user agent made of Sofia-SIP's user agent engine (nua), for bench/measure: each call to 127.0.0.1:5460 is made again to 127.0.0.1:5072, bodies, statuses
   and ends are passed on. It has no accounts and no services, carries no audio and keeps no CDRs.
   cc -O2 -o sofia bench/sofia.c $(pkg-config --cflags --libs sofia-sip-ua) */
typedef struct leg leg;
#define NUA_MAGIC_T void
#define NUA_HMAGIC_T leg
#include <sofia-sip/nua.h>
#include <sofia-sip/nua_tag.h>
#include <sofia-sip/sip.h>
#include <sofia-sip/sip_status.h>
#include <sofia-sip/sip_tag.h>
#include <sofia-sip/su_wait.h>
#include <stdio.h>
#include <stdlib.h>

struct leg {
    nua_handle_t *handle;
    leg *other;
};

static leg *add_leg(nua_handle_t *handle)
{
    leg *made = calloc(1, sizeof *made);
    if (!made)
        abort();
    made->handle = handle;
    return made;
}

/* A call is received: the same one is made. */
static void call_on(nua_t *nua, nua_handle_t *handle, sip_t const *sip)
{
    leg *caller = add_leg(handle), *callee = add_leg(NULL);
    caller->other = callee;
    callee->other = caller;
    nua_handle_bind(handle, caller);
    callee->handle = nua_handle(nua, callee, NUTAG_URL("sip:vm@127.0.0.1:5072"), SIPTAG_TO_STR("<sip:vm@127.0.0.1:5072>"), TAG_END());
    nua_invite(callee->handle, SIPTAG_CONTENT_TYPE(sip->sip_content_type), SIPTAG_PAYLOAD(sip->sip_payload), TAG_END());
}

/* A leg is over: nothing is reported for it any more. */
static void forget(leg *over)
{
    if (over->other)
        over->other->other = NULL;
    nua_handle_destroy(over->handle);
    free(over);
}

static void heard(nua_event_t event, int status, char const *phrase, nua_t *nua, nua_magic_t *magic, nua_handle_t *handle, leg *one, sip_t const *sip, tagi_t tags[])
{
    (void)magic;
    (void)phrase;
    (void)tags;
    leg *other = one ? one->other : NULL;
    switch (event) {
    case nua_i_invite:
        if (!one)
            call_on(nua, handle, sip);
        break;
    case nua_r_invite:
        if (status > 100 && other && sip)
            nua_respond(other->handle, status, sip_status_phrase(status), SIPTAG_CONTENT_TYPE(sip->sip_content_type), SIPTAG_PAYLOAD(sip->sip_payload), TAG_END());
        break;
    case nua_i_bye:
        if (other)
            nua_bye(other->handle, TAG_END());
        break;
    case nua_i_cancel:
        if (other)
            nua_cancel(other->handle, TAG_END());
        break;
    case nua_i_terminated:
        if (one)
            forget(one);
        break;
    default:
        break;
    }
}

int main(void)
{
    su_init();
    su_root_t *root = su_root_create(NULL);
    nua_t *nua = root ? nua_create(root, heard, NULL, NUTAG_URL("sip:127.0.0.1:5460;transport=udp"), NUTAG_MEDIA_ENABLE(0), NUTAG_AUTOALERT(0), NUTAG_AUTOANSWER(0), NUTAG_AUTOACK(1),
        NUTAG_SESSION_TIMER(0), NUTAG_ENABLEMESSAGE(0), TAG_END()) : NULL;
    if (!nua) {
        fprintf(stderr, "no user agent at 127.0.0.1:5460\n");
        return 1;
    }
    su_root_run(root);
    return 0;
}
