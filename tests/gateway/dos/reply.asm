; REPLY: offers a service, and sends each packet that comes to it back to where it came from. A packet that begins with Q ends it.
%include "ipx.inc"

main:   cld
        mov     dx, wire(4003h)
        call    find
        mov     dx, says
        call    print
        mov     si, own
        mov     cx, 12
        call    field
        call    line
        call    listen
        mov     byte [left], 250
.offer: dec     byte [left]
        jz      .end
        call    offer
.next:  mov     ax, 18
        call    hear
        jc      .offer
        cmp     byte [in_packet + HEADER], 'Q'
        je      .end
        call    back
        jmp     .next
.end:   mov     dx, leaves
        call    print
        jmp     quit

; A response of SAP to all: type 4, the name REPLY, the own address, one hop.
offer:  mov     dx, wire(452h)
        call    to_all
        mov     si, own
        mov     di, service + 52
        mov     cx, 12
        rep     movsb
        mov     si, service
        mov     di, out_packet + HEADER
        mov     cx, 66
        rep     movsb
        mov     cx, 66
        mov     al, 4
        jmp     send

; The packet that came, back to its source. It listens again before it sends: the next packet may follow at once.
back:   mov     si, in_packet + SOURCE
        call    to_si
        mov     cx, [in_packet + LENGTH]
        xchg    ch, cl
        sub     cx, HEADER
        push    cx
        mov     si, in_packet + HEADER
        mov     di, out_packet + HEADER
        rep     movsb
        call    listen
        pop     cx
        mov     al, 4
        jmp     send

says:   db      "REPLY at$"
leaves: db      "REPLY ends", 13, 10, "$"
service: dw     wire(2), wire(4)
        db      "REPLY"
        times 43 db 0
        times 12 db 0
        dw      wire(1)
left:   db      0
        align   2
in_packet:
out_packet equ  in_packet + MOST + 16
