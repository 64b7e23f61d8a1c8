-- Wireshark: judges a capture by osi-capture, and shows the verdict with the frames that it names.
--
-- Put this file into the folder of personal Lua plugins (Help, About Wireshark, Folders). Then Tools, OSI session, Judge a capture
-- asks for the name of a pcap or pcapng. It shows what `osi-capture judge` prints; the button "Show the frames" opens a copy with the
-- verdicts as comments of their frames (`osi-capture annotate`), and the display filter below finds these.
-- docs/JUDGING.md says what a verdict means.

local FILTER = 'frame.comment contains "osi:"'
local KEPT, BROKE, NOTHING, PARTLY = 0, 1, 2, 3
local MEANINGS = {
    [KEPT] = "Both sides of every stream kept the protocol.",
    [BROKE] = "A side broke the protocol.",
    [NOTHING] = "Nothing could be judged.",
    [PARTLY] = "No side broke the protocol, but not everything could be judged.",
}

set_plugin_info({
    version = "0.1.0",
    description = "Says which side of an OSI session broke the protocol",
    repository = "osi",
})

-- A word for the shell.
local function quoted(word)
    return "'" .. word:gsub("'", "'\\''") .. "'"
end

-- What a command prints on both of its outputs, and its status.
local function run(words)
    local made = {}
    for _, word in ipairs(words) do
        made[#made + 1] = quoted(word)
    end
    local pipe = io.popen(table.concat(made, " ") .. ' 2>&1; printf "\\n%d" $?')
    if not pipe then
        return "the shell can't be run", NOTHING
    end
    local text = pipe:read("*a")
    pipe:close()
    local said, status = text:match("^(.*)\n(%d+)$")
    return said or text, tonumber(status) or NOTHING
end

-- The words of osi-capture on a file; a port is named if there is one.
local function words(job, file, port)
    local made = {"osi-capture", job, file}
    if port ~= "" then
        made[#made + 1] = "--port"
        made[#made + 1] = port
    end
    return made
end

-- Opens a copy of a capture in which the frames of the verdicts have comments.
local function show_frames(file, port)
    local output = os.tmpname() .. ".pcapng"
    local made = words("annotate", file, port)
    made[#made + 1] = "-o"
    made[#made + 1] = output
    local said = run(made)
    local copy = io.open(output, "rb")
    if not copy then
        report_failure("osi-capture annotate: " .. said)
        return
    end
    copy:close()
    open_capture_file(output, FILTER)
end

-- Judges a capture, and shows the verdict in a window.
local function judge(file, port)
    local made = words("judge", file, port or "")
    local said, status = run(made)
    local window = TextWindow.new("OSI session: " .. file)
    window:set((MEANINGS[status] or "osi-capture can't be run; is it installed?") .. "\n\n" .. said)
    window:add_button("Show the frames", function()
        show_frames(file, port or "")
    end)
end

-- In tshark there is no menu, and nothing to do.
if gui_enabled() then
    register_menu("OSI session/Judge a capture", function()
        new_dialog("Judge a capture", judge, "Capture (pcap or pcapng)", "Port of TPKT (102 if empty)")
    end, MENU_TOOLS_UNSORTED)
end
