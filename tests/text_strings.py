"""The strings of Debian's ncurses-term 6.4 that print a text, each with an entry that has it.

They program function keys and their labels; the first argument is the key, the second the text (of
pfxl, which has no place in the second edition, the third is another). With them here, a test or a
benchmark doesn't depend on which entries are installed.
"""

STRINGS = [
    ("altos4", "pfx", b"\33z%p1%'?'%+%c%p2%s\177"),
    ("altos4", "pln", b"\33z%p1%'/'%+%c%p2%s\r"),
    ("ansi-color-2-emx", "pfkey",
     b"\33[0;%?%p1%{11}%<%t%':'%e%p1%{13}%<%t%'z'%e%p1%{23}%<%t%'G'%e%p1%{25}%<%t%'p'%e%p1%'#'%<%t"
     b"%'E'%e%p1%'%'%<%t%'f'%e%p1%'/'%<%t%'C'%e%{92}%;%p1%+%d;%p2\"%s\"p"),
    ("ansi.sys-old", "pfkey", b"\33[0;%p1%':'%+%d;%p2\"%s\"p"),
    ("att4410", "pfx", b"\33[%p1%d;%p2%l%02dq   f%p1%d           %p2%s"),
    ("att4410", "pln", b"\33[%p1%d;00q%p2%:-16s"),
    ("att4410v1-w", "pfx", b"\33[%p1%1d;%p2%l%2.2dq   f%p1%1d           %p2%s"),
    ("att4415", "pfx", b"\33[%p1%d;%p2%l%02dq   F%p1%d           %p2%s"),
    ("att4415", "pln", b"\33[%p1%d;0;0;0q%p2%:-16.16s"),
    ("att4415+nl", "pfx", b"\33[%p1%d;%p2%l%02d;0;1q   F%p1%d           %p2%s"),
    ("att4415+nl", "pln", b"\33[%p1%d;0;0;1q%p2%:-16.16s"),
    ("att500", "pfkey", b"\33[%p1%d;%p2%l%d;3;0p   F%p1%d           %p2%s"),
    ("att500", "pfloc", b"\33[%p1%d;%p2%l%d;2;0p   F%p1%d           %p2%s"),
    ("att500", "pfx", b"\33[%p1%d;%p2%l%d;1;0p   F%p1%d           %p2%s"),
    ("att500", "pln", b"\33[%p1%dp%p2%:-16s"),
    ("att5420_2", "pfx", b"\33[%p1%d;%p2%l%02dq   F%p1%d           %p2%s\33~"),
    ("att5420_2", "pln", b"\33[%p1%d;0;0;0q%p2%:-16.16s\33~"),
    ("att5425", "pfx", b"\33[%p1%d;%p2%l%02dq   F%p1%1d           %p2%s"),
    ("att5620", "pfx", b"\33[%p1%d;%p2%l%dq%p2%s"),
    ("att700", "pfx", b"\33[%p1%d;%p2%l%02dq%?%p1%{9}%<%t   F%p1%1d           %;%p2%s"),
    ("att730", "pfx",
     b"\33[%?%p1%{25}%<%t%p1%e%p1%{24}%-%;%d;%p2%l%02d%?%p1%{25}%<%tq   SYS     F%p1%:-2d  %e;0;3q"
     b"%;%p2%s"),
    ("att730", "pfxl", b"\33[%p1%d;%p2%l%02d;0;0q%p3%:-16.16s%p2%s"),
    ("avt", "pfloc", b"\33[%p1%d;0u#%p2%s#"),
    ("avt", "pfx", b"\33[%p1%d;1u#%p2%s#"),
    ("hp+labels", "pln", b"\33&f2a%p1%dk%p2%l%Pa%?%ga%t%ga%d%e1%;d0L%?%ga%!%t %;%p2%s"),
    ("hp150", "pfkey", b"\33&f0a%p1%dk0d%p2%l%dL%p2%s"),
    ("hp150", "pfloc", b"\33&f1a%p1%dk0d%p2%l%dL%p2%s"),
    ("hp150", "pfx", b"\33&f2a%p1%dk0d%p2%l%dL%p2%s"),
    ("hp2", "pfkey", b"\33&f%p1%dk%p2%l%dL%p2%s"),
    ("hp2", "pfloc", b"\33&f1a%p1%dk%p2%l%dL%p2%s"),
    ("hp2", "pfx", b"\33&f2a%p1%dk%p2%l%dL%p2%s"),
    ("hp2", "pln", b"\33&f%p1%dk%p2%l%dd0L%p2%s"),
    ("hp2382a", "pln", b"\33&f0a%p1%dk%p2%l%Pa%?%ga%t%ga%d%e1%;d0L%?%ga%!%t %;%p2%s"),
    ("hp2621b", "pln",
     b"\33&f0a%p1%dk%p2%l%Pa%?%ga%t%ga%d%e1%;d3L%?%ga%!%t%' '%c%;%p2%s\33%'o'%p1%+%c\r"),
    ("iris-ansi", "pfkey", b"\33P101;%p1%d.y%p2%s\33\\"),
    ("ndr9500", "pfloc", b"\33|%'0'%p1%+%c2%p2%s\31"),
    ("ndr9500", "pfx", b"\33|%'0'%p1%+%c1%p2%s\31"),
    ("opus3n1+", "pfloc", b"\33Z2%p1%'?'%+%c%p2%s\177"),
    ("opus3n1+", "pfx", b"\33Z1%p1%'?'%+%c%p2%s\177"),
    ("tvi9065", "pfkey", b"\33|%p1%'0'%+%c3%p2%s\31"),
    ("tvi9065", "pfloc", b"\33|%p1%'0'%+%c2%p2%s\31"),
    ("tvi9065", "pfx", b"\33|%p1%'0'%+%c1%p2%s\31"),
    ("tvi9065", "pln", b"\33_%p1%'?'%+%c%p2%s\r"),
    ("tvi924", "pfkey", b"\33|%p1%'1'%+%c%p2%s\31"),
    ("vt420pc", "pfx",
     b"\33P1;1|%?%{16}%p1%>%t%{0}%e%{21}%p1%>%t%{1}%e%{25}%p1%>%t%{2}%e%{27}%p1%>%t%{3}%e%{30}%p1%>"
     b"%t%{4}%e%{5}%;%p1%+%d/%p2%s\33\\"),
]
