-- One request, judged by the access lists that Redis keeps as the store judges it: who asks, what (read, retitle,
-- set_lists, list or add), the number of the picture, or of the album that is listed or gets one, and for a write the
-- title, or the new lists of the picture and its album.
local who, verb, picture = ARGV[1], ARGV[2], "picture:" .. ARGV[3]
local MASKS = { read = 1, retitle = 256, set_lists = 262144, list = 1, row = 128, add = 2 }
local GROUP, INHERIT_ONLY = 64, 8
local is_in = {}

-- Looks up whether the group has who asks, or lists a group that has. Groups don't list one another in a circle here.
local function look_up(group)
    if is_in[group] == nil then
        is_in[group] = false
        is_in[group] = redis.call("SISMEMBER", "group:" .. group, who) == 1
        for _, inner in ipairs(redis.call("SMEMBERS", "group:" .. group .. ":groups")) do
            is_in[group] = look_up(inner) or is_in[group]
        end
    end
    return is_in[group]
end

local function means(entry, owner, group)
    local text = entry[2]
    if bit.band(entry[4], INHERIT_ONLY) ~= 0 then return false end
    if text == "EVERYONE@" then return true end
    if text == "OWNER@" then return who == owner end
    if text == "GROUP@" then return is_in[group] end
    if text == "ANONYMOUS@" then return who == "ANONYMOUS@" end
    if text == "AUTHENTICATED@" then return who ~= "ANONYMOUS@" end
    if bit.band(entry[4], GROUP) ~= 0 then return is_in[string.match(text, "^%d+")] end
    return text == who
end

-- Whether each bit of the mask is allowed by the first entry of the list that mentions it.
local function grants(mask, owner, group, list)
    local entries = cjson.decode(redis.call("GET", "list:" .. list))
    look_up(group)
    for _, entry in ipairs(entries) do
        if bit.band(entry[4], GROUP) ~= 0 then look_up(string.match(entry[2], "^%d+")) end
    end
    for _, entry in ipairs(entries) do
        local met = bit.band(mask, entry[3])
        if met ~= 0 and means(entry, owner, group) then
            if entry[1] == "deny" then return false end
            if entry[1] == "allow" then mask = mask - met end
        end
    end
    return mask == 0
end

local function is_granted(object, mask)
    return grants(mask, unpack(redis.call("HMGET", object, "owner", "group", "list")))
end

-- The titles of the children of an album that may be seen, each after the child.
local function rows_of(album)
    local rows = {}
    for _, child in ipairs(redis.call("LRANGE", album .. ":children", 0, -1)) do
        local head = redis.call("HMGET", child, "title", "home", "owner", "group", "list")
        local title, home, owner, group, list = unpack(head)
        if home == ARGV[3] and grants(MASKS.row, owner, group, list) then
            rows[#rows + 1] = child .. " " .. title
        end
    end
    return rows
end

if verb == "list" then
    local album = "album:" .. ARGV[3]
    if not is_granted(album, MASKS[verb]) then
        return { ok = "denied" }
    end
    return { ok = "listed " .. table.concat(rows_of(album), " ") }
end

if verb == "add" then
    local album = "album:" .. ARGV[3]
    local owner, group, list = unpack(redis.call("HMGET", album, "owner", "group", "list"))
    if not grants(MASKS[verb], owner, group, list) then
        return { ok = "denied" }
    end
    local made = "new:" .. redis.call("INCR", "stamp")
    redis.call("SET", "list:" .. made, redis.call("GET", "list:" .. list))
    redis.call("HSET", "picture:" .. made, "title", ARGV[4], "content", "", "home", ARGV[3], "owner", who, "group", group,
        "list", made)
    redis.call("RPUSH", album .. ":children", "picture:" .. made)
    return { ok = "committed" }
end

local title, content, home, list = unpack(redis.call("HMGET", picture, "title", "content", "home", "list"))
local album = "album:" .. home
local albums_list = redis.call("HGET", album, "list")
if not is_granted(picture, MASKS[verb]) or (verb == "set_lists" and not is_granted(album, MASKS[verb])) then
    return { ok = "denied" }
end
if verb == "read" then
    return { ok = "served " .. title .. " " .. content }
end
if verb == "retitle" then
    redis.call("HSET", picture, "title", ARGV[4])
    redis.call("INCR", "stamp")
else
    redis.call("SET", "list:" .. list, ARGV[4])
    redis.call("SET", "list:" .. albums_list, ARGV[5])
end
return { ok = "committed" }
