; ASK: asks routers for all routes and for the nearest service of type 4, sends packets of several lengths to that service and hears them
; come back, and a packet of type 20 to all. It prints what it hears.
%include "ipx.inc"

PATIENCE equ    18 * 120        ; ticks until what must come is taken for lost
AGAIN   equ     18 * 5          ; ticks until routers are asked for routes again

main:   cld
        mov     dx, wire(4004h)
        call    find
        mov     dx, says
        call    print
        mov     si, own
        mov     cx, 12
        call    field
        call    line
        call    listen
        call    routes
        call    service
        jc      .none
        call    local
        mov     si, sizes
.next:  lodsw
        cmp     ax, 0FFFFh
        je      .all
        push    si
        call    try
        pop     si
        jmp     .next
.all:   call    all
        mov     si, server
        call    to_si
        mov     byte [out_packet + HEADER], 'Q'
        mov     cx, 1
        mov     al, 4
        call    send
        mov     dx, leaves
        call    print
        jmp     quit
.none:  mov     dx, nobody
        call    print
        jmp     quit

; Asks for all routes until there is an answer, and prints each in it: network, hops, ticks. (what is said before the gateway has heard
; the answer to its ping is lost)
routes: mov     byte [left], PATIENCE / AGAIN
.again: mov     dx, wire(453h)
        call    to_all
        mov     word [out_packet + HEADER], wire(1)
        mov     ax, 0FFFFh
        mov     di, out_packet + HEADER + 2
        mov     cx, 4
        rep     stosw
        mov     cx, 10
        mov     al, 1
        call    send
        mov     ax, AGAIN
        call    hear
        jnc     .there
        dec     byte [left]
        jnz     .again
        ret
.there: mov     ax, [in_packet + LENGTH]
        xchg    ah, al
        sub     ax, HEADER + 2
        shr     ax, 3
        mov     cx, ax
        mov     si, in_packet + HEADER + 2
.next:  push    cx
        mov     dx, route
        call    print
        mov     cx, 4
        call    field
        mov     cx, 2
        call    field
        mov     cx, 2
        call    field
        call    line
        pop     cx
        loop    .next
        jmp     listen

; Asks for the nearest service of type 4 until there is an answer, and prints it. Carry is set where there is none in some minutes.
service: mov    byte [left], 250
.again: mov     dx, wire(452h)
        call    to_all
        mov     word [out_packet + HEADER], wire(3)
        mov     word [out_packet + HEADER + 2], wire(4)
        mov     cx, 4
        mov     al, 4
        call    send
        mov     ax, 18
        call    hear
        jnc     .there
        dec     byte [left]
        jnz     .again
        stc
        ret
.there: mov     dx, offered
        call    print
        mov     dx, in_packet + HEADER + 4
        mov     byte [in_packet + HEADER + 4 + 5], '$'
        call    print
        mov     si, in_packet + HEADER + 52
        mov     di, server
        mov     cx, 12
        rep     movsb
        mov     si, server
        mov     cx, 12
        call    field
        mov     si, in_packet + HEADER + 64
        mov     cx, 2
        call    field
        call    line
        call    listen
        clc
        ret

; Asks the driver for the way to the service.
local:  mov     si, server
        mov     di, way
        mov     bx, TARGET
        call    far [entry]
        mov     dx, by
        call    print
        mov     si, way
        mov     cx, 6
        call    field
        jmp     line

; Waits for a packet of the service. Others are let go, as a second answer to the question for it. Carry is set where none came.
answer: mov     ax, PATIENCE
        call    hear
        jc      .end
        push    ds
        pop     es
        mov     si, in_packet + SOURCE
        mov     di, server
        mov     cx, 12
        repe    cmpsb
        clc
        je      .end
        call    listen
        jmp     answer
.end:   ret

; Sends AX bytes to the service, and prints what comes back: its length, transport control, and whether it is the same.
try:    push    ax
        mov     si, server
        call    to_si
        pop     cx
        push    cx
        mov     di, out_packet + HEADER
        mov     al, 1
.fill:  jcxz    .full
        stosb
        add     al, 7
        dec     cx
        jmp     .fill
.full:  pop     cx
        push    cx
        mov     al, 4
        call    send
        call    answer
        pop     cx
        jc      lost
        mov     dx, echoed
        call    print
        mov     ax, [in_packet + LENGTH]
        xchg    ah, al
        sub     ax, HEADER
        cmp     ax, cx
        jne     differs
        mov     si, out_packet + HEADER
        mov     di, in_packet + HEADER
        repe    cmpsb
        jne     differs
shown:  mov     si, in_packet + LENGTH
        mov     cx, 2
        call    field
        mov     si, in_packet + CONTROL
        mov     cx, 1
        call    field
        call    line
        jmp     listen
differs: mov    dx, unlike
        call    print
        jmp     shown
lost:   mov     dx, nothing
        jmp     print

; A packet of type 20 to all networks, with room for the eight that it crosses; the service sends it back.
all:    mov     dx, wire(4003h)
        call    to_all
        mov     di, out_packet + HEADER
        xor     ax, ax
        mov     cx, 16
        rep     stosw
        mov     word [di], "AL"
        mov     cx, 34
        mov     al, 20
        call    send
        call    answer
        jc      lost
        mov     dx, crossed
        call    print
        mov     si, in_packet + HEADER
        mov     cx, 4
        call    field
        call    line
        jmp     listen

says:   db      "ASK at$"
route:  db      "route$"
offered: db     "service $"
by:     db      "by$"
echoed: db      "echo$"
unlike: db      " differs$"
nothing: db     "nothing came back", 13, 10, "$"
crossed: db     "crossed$"
nobody: db      "no service", 13, 10, "$"
leaves: db      "ASK ends", 13, 10, "$"
sizes:  dw      0, 1, 100, 546, 1000, 1393, 0FFFFh
server: times 12 db 0
way:    times 6 db 0
left:   db      0
        align   2
in_packet:
out_packet equ  in_packet + MOST + 16
