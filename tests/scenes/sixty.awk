# What scenes/sixty.scene must give, computed from the paper and not by our programs: awk -f sixty.awk </dev/null. The tag of success
# number n is the start plus n times 2654435769, kept to 32 bits. With -v tags=1 it prints the steps and their tags alone.
function tag(n,   t) {
    t = (3735928559 + n * 2654435769) % 4294967296
    return sprintf("%04x%04x", int(t / 65536), t % 65536)
}
function message(status, cseq) {
    print "    SIP/2.0 " status
    print "    v: SIP/2.0/UDP phone"
    print "    f: <sip:ann@room.example>;tag=1"
    print "    t: <sip:ann@room.example>;tag=00000001"
    print "    i: 1"
    print "    CSeq: " cseq " PUBLISH"
}
function success(step, n, granted) {
    print step " 200 " tag(n) " " granted
    if (tags) return
    message("200 OK", step == 65 ? 63 : n)
    print "    SIP-ETag: " tag(n)
    print "    Expires: " granted
    last()
}
function last() { print "    Content-Length: 0"; print "" }
function slot(n, left) { if (!tags) print "  slot 0 presence " tag(n) " left " left " body 4 number 1" }
BEGIN {
    if (!tags) print "1 add 0"
    for (n = 1; n <= 61; n++) { success(n + 1, n, 3600); slot(n, 3600) }
    if (!tags) {
        print "63 412 - -"
        message("412 Conditional Request Failed", 62)
        last()
        slot(61, 3599)
        print "64 read 0"
        print "  shown store 0 4"
        slot(61, 3599)
    }
    success(65, 62, 0)
    if (!tags) {
        print "66 read 0"
        print "  shown default 4"
        print "witness and second agree on 66 steps"
    }
}
