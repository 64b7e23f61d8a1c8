"""Colours and letters of a picture, light and dark. Connections have those of Okabe and Ito."""

LIGHT = ("#0072B2", "#D55E00", "#009E73", "#CC79A7", "#E69F00", "#56B4E9", "#000000")
DARK = ("#56B4E9", "#E69F00", "#009E73", "#CC79A7", "#D55E00", "#0072B2", "#F0E442")
PALETTE = len(LIGHT)


def colours(palette, paper, ink, muted, refused):
    """The rules that differ between light and dark."""
    rules = [f".c{place}{{color:{colour}}}" for place, colour in enumerate(palette)]
    return "".join(rules + [
        f"svg{{color:{ink}}}.paper,.under{{fill:{paper}}}text{{fill:{ink}}}.muted,.key,.note{{fill:{muted}}}",
        f".label,.plain,.muted,.refused{{stroke:{paper}}}.seen,.rest{{fill:{paper}}}text.inside{{fill:{paper}}}",
        f"text.refused{{fill:{refused}}}path.refused,.break,.told{{stroke:{refused}}}.plain{{color:{muted}}}"])


STYLE = ("<style>" + "text{font:12px 'DejaVu Sans Mono',Menlo,Consolas,'Liberation Mono',monospace}"
         "text.plain,text.muted,text.refused{paint-order:stroke;stroke-width:3px}"
         "text.label{font-size:10.5px;paint-order:stroke;stroke-width:4px;stroke-linejoin:round}"
         "text.head{font-size:14px;font-weight:bold}text.number{font-size:14px;font-weight:bold}"
         "text.number{fill:currentColor}text.tiny,text.inside{font-size:10px}text.inside{font-weight:bold}"
         "text.key,text.note{font-size:11px}text.refused{font-style:italic}"
         "path,circle,polyline{fill:none;stroke:currentColor;stroke-width:1.5}"
         ".life{stroke-width:2.5}.way{stroke-width:1;stroke-opacity:.4}.end{stroke-width:2}"
         ".shaft{stroke-width:1.6}.tip,.call,.diamond{fill:currentColor}"
         ".tip{stroke:none}.minor .shaft{stroke-width:1;stroke-dasharray:5 3}"
         ".plain .shaft,.open .shaft{stroke-dasharray:2 4}"
         ".cross{stroke-width:2.2}.break{stroke-width:2}.told{stroke-width:3;stroke-dasharray:6 3}"
         ".band rect{fill:currentColor;stroke:currentColor;stroke-width:1;fill-opacity:.45}"
         ".band .t1,.band .t3{fill-opacity:.15}"
         ".s1{stroke-dasharray:9 4}.s2{stroke-dasharray:3 3}.s3{stroke-dasharray:12 3 3 3}"
         + colours(LIGHT, "#ffffff", "#1a1a1a", "#555555", "#a33c00")
         + ".diamond.seen{fill:#fff}"
         + "@media (prefers-color-scheme:dark){"
         + colours(DARK, "#14171a", "#e8e8e8", "#b0b4b8", "#ff9a5c") + ".diamond.seen{fill:#14171a}}</style>")
# What only a picture with a verdict has.
VERDICT = ("<style>.box{fill:none;stroke:currentColor;stroke-width:1.5}text.verdict{font-size:12px}"
           ".box.bad,.wrong .shaft{stroke:#a33c00}rect.wrong{fill:#a33c00;fill-opacity:.13}.wrong .tip{fill:#a33c00}"
           ".wrong .shaft{stroke-width:3}"
           "@media (prefers-color-scheme:dark){.box.bad,.wrong .shaft{stroke:#ff9a5c}rect.wrong,.wrong .tip{fill:#ff9a5c}}</style>")
