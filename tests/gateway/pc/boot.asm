; A boot sector that drives an NE2000 at port 300h, and sends each IPX packet for its node back to where it came from, by Novell's raw
; frames. It knows neither a network nor a router: it answers whoever sent the frame. With LEARNS it asks routers for their routes at its
; start, takes the network that the answer is for as its own, and says it from then on.
        bits    16
        cpu     286
        org     7C00h

CARD    equ     300h
CR      equ     CARD + 0        ; command
PSTART  equ     CARD + 1        ; the ring's first page
PSTOP   equ     CARD + 2        ; the page behind its last
BNRY    equ     CARD + 3        ; the last page that was read
TPSR    equ     CARD + 4        ; the page of what is sent
TBCR    equ     CARD + 5        ; its length
ISR     equ     CARD + 7
RSAR    equ     CARD + 8        ; where bytes are moved from or to in the card's memory
RBCR    equ     CARD + 10       ; how many
RXCR    equ     CARD + 12
TXCR    equ     CARD + 13
DCR     equ     CARD + 14
IMR     equ     CARD + 15
CURR    equ     CARD + 7        ; (of page 1) where the next frame goes
DATA    equ     CARD + 16
RESET   equ     CARD + 31

SENT    equ     40h             ; pages of the card's memory: what is sent, and the ring
FIRST   equ     46h
LAST    equ     56h             ; (16 pages)

own     equ     7E00h           ; in the PC's memory: its node,
head    equ     7E06h           ; what the card says of a frame,
network equ     7E0Ah           ; the network that was learned,
FRAME   equ     8000h           ; and a frame
PACKET  equ     FRAME + 14

%macro put 2
        mov     dx, %1
        mov     al, %2
        out     dx, al
%endmacro

start:  cli
        xor     ax, ax
        mov     ds, ax
        mov     es, ax
        mov     ss, ax
        mov     sp, 7C00h
        cld
        mov     dx, RESET
        in      al, dx
        out     dx, al
        put     CR, 21h         ; stopped
        put     DCR, 48h        ; bytes
        put     RXCR, 20h        ; nothing is taken yet
        put     TXCR, 02h        ; nothing leaves yet
        put     PSTART, FIRST
        put     BNRY, FIRST
        put     PSTOP, LAST
        put     ISR, 0FFh
        put     IMR, 0
        xor     bx, bx          ; the card's own address: each byte stands twice
        mov     cx, 12
        mov     di, FRAME
        call    read
        mov     si, FRAME
        mov     di, own
        mov     cx, 6
.own:   lodsw
        stosb
        loop    .own
        put     CR, 61h         ; page 1
        mov     si, own
        mov     dx, CARD + 1
        mov     cx, 6
.node:  lodsb
        out     dx, al
        inc     dx
        loop    .node
        put     CURR, FIRST + 1
        put     CR, 22h         ; it runs
        put     TXCR, 0
        put     RXCR, 04h        ; frames for it, and broadcasts

%ifdef LEARNS
        mov     si, own         ; the request's frame and packet come from this node
        mov     di, request + 6
        call    node
        mov     di, request + 14 + 22
        call    node
        mov     si, request
        mov     di, FRAME
        mov     cx, LENGTH
        rep     movsb
        mov     cx, LENGTH
        call    answer.send
%endif

next:   put     CR, 62h
        mov     dx, CURR
        in      al, dx
        mov     ah, al
        put     CR, 22h
        mov     dx, BNRY
        in      al, dx
        inc     al
        cmp     al, LAST
        jb      .page
        mov     al, FIRST
.page:  cmp     al, ah
        je      next
        mov     bh, al          ; four bytes: how it came, the page behind it, its length with them
        mov     bl, 0
        mov     di, head
        mov     cx, 4
        call    read
        add     bx, 4
        mov     cx, [head + 2]
        sub     cx, 4
        mov     di, FRAME
        push    cx
        call    read
        mov     al, [head + 1]
        dec     al
        cmp     al, FIRST
        jae     .seen
        mov     al, LAST - 1
.seen:  mov     dx, BNRY
        out     dx, al
        pop     cx
        call    answer
        jmp     next

; CX bytes from BX of the card's memory to DI.
read:   call    where
        put     CR, 0Ah
        mov     dx, DATA
        rep     insb
        ret

; Tells the card BX and CX.
where:  mov     dx, RSAR
        mov     al, bl
        out     dx, al
        inc     dx
        mov     al, bh
        out     dx, al
        inc     dx
        mov     al, cl
        out     dx, al
        inc     dx
        mov     al, ch
        out     dx, al
        ret

; Sends a frame of CX bytes back, if it is a packet for this node.
answer: cmp     word [PACKET], 0FFFFh
        jne     .end
        push    cx
        mov     si, PACKET + 10
        mov     di, own
        mov     cx, 6
        repe    cmpsb
        pop     cx
        jne     .end
        push    cx
        mov     byte [PACKET + 4], 0
        mov     si, PACKET + 6  ; destination and source of the packet
        mov     di, PACKET + 18
        mov     cx, 6
.swap:  mov     ax, [si]
        xchg    ax, [di]
        mov     [si], ax
        add     si, 2
        add     di, 2
        loop    .swap
        mov     si, FRAME + 6   ; those of the frame
        mov     di, FRAME
        mov     cx, 3
        rep     movsw
        mov     si, own
        mov     cx, 3
        rep     movsw
        pop     cx
%ifdef LEARNS
        cmp     word [PACKET + 16], 5304h       ; from a router's socket: it was said to this network, and isn't answered
        jne     .say
        mov     si, PACKET + 18
        mov     di, network
        movsw
        movsw
        ret
.say:   push    cx
        mov     si, network
        mov     di, PACKET + 18
        movsw
        movsw
        pop     cx
%endif
.send:  mov     bx, SENT << 8   ; (CX bytes)
        call    where
        put     CR, 12h
        mov     si, FRAME
        mov     dx, DATA
        push    cx
        rep     outsb
        pop     cx
        put     TPSR, SENT
        mov     dx, TBCR
        mov     al, cl
        out     dx, al
        inc     dx
        mov     al, ch
        out     dx, al
        put     CR, 26h
.sent:  in      al, dx
        test    al, 4
        jnz     .sent
.end:   ret

%ifdef LEARNS
; Copies a node.
node:   push    si
        mov     cx, 3
        rep     movsw
        pop     si
        ret

request:
        times 6 db 0FFh
        times 6 db 0
        db      0, 40           ; the length, in a raw frame
        db      0FFh, 0FFh, 0, 40, 0, 1
        times 4 db 0            ; to all of this network, at RIP's socket
        times 6 db 0FFh
        db      04h, 53h
        times 4 db 0            ; from it
        times 6 db 0
        db      40h, 03h
        db      0, 1            ; a request for all routes
        times 8 db 0FFh
LENGTH  equ     $ - request
%endif
        times 510 - ($ - $$) db 0
        dw      0AA55h
