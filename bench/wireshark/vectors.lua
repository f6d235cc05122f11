-- Compares the ciphers of tools/wireshark/uadp.lua with the vectors of the standards, in tshark's Lua or any other from 5.2 on; UADP names
-- the dissector's file. It prints `N vectors` where all hold, and else those that differ.

local function bytes(hex) return (hex:gsub("%s", ""):gsub("..", function(pair) return string.char(tonumber(pair, 16)) end)) end
local function hex(text) return (text:gsub(".", function(byte) return ("%02x"):format(byte:byte()) end)) end

-- outside Wireshark, which has `Proto`, the file gives its ciphers alone
local file = assert(io.open(os.getenv("UADP")))
local it = assert(load(file:read("*a"), "uadp.lua", "t", setmetatable({Proto = false}, {__index = _G})))()
local block = bytes("00112233445566778899aabbccddeeff")
local key = bytes("000102030405060708090a0b0c0d0e0f101112131415161718191a1b1c1d1e1f")
-- one block of the cipher: the counter block is the input, the text is of zeros
local function cipher(key, input)
    local number = 0
    for i = 13, 16 do number = number * 256 + input:byte(i) end
    return it.counter_mode(it.key_schedule(key), input:sub(1, 12), number, ("\0"):rep(16))
end
local plain = bytes([[6bc1bee22e409f96e93d7e117393172a ae2d8a571e03ac9c9eb76fac45af8e51
    30c81c46a35ce411e5fbc1191a0a52ef f69f2445df4f9b17ad2b417be66c3710]])
local first = bytes("f0f1f2f3f4f5f6f7f8f9fafb")
local function ctr(key) return it.counter_mode(it.key_schedule(bytes(key)), first, 0xfcfdfeff, plain) end

local vectors = {
    {"FIPS 197 C.1", cipher(key:sub(1, 16), block), "69c4e0d86a7b0430d8cdb78070b4c55a"},
    {"FIPS 197 C.3", cipher(key, block), "8ea2b7ca516745bfeafc49904b496089"},
    {"SP 800-38A F.5.1", ctr("2b7e151628aed2a6abf7158809cf4f3c"), [[874d6191b620e3261bef6864990db6ce 9806f66b7970fdff8617187bb9fffdff
        5ae4df3edbd5d35e5b4f09020db03eab 1e031dda2fbe03d1792170a0f3009cee]]},
    {"SP 800-38A F.5.5", ctr("603deb1015ca71be2b73aef0857d77811f352c073b6108d72d9810a30914dff4"), [[601ec313775789a5b7a7f504bbf3d228
        f443e3ca4d62b59aca84e990cacaf5c5 2b0930daa23de94ce87017ba2d84988d dfc9c58db67aada613c2dd08457941a6]]},
    {"FIPS 180-4, abc", it.sha256("abc"), "ba7816bf8f01cfea414140de5dae2223b00361a396177a9cb410ff61f20015ad"},
    {"FIPS 180-4, two blocks", it.sha256("abcdbcdecdefdefgefghfghighijhijkijkljklmklmnlmnomnopnopq"),
        "248d6a61d20638b8e5c026930c3e6039a33ce45964ff2167f6ecedd419db06c1"},
    {"FIPS 180-4, none", it.sha256(""), "e3b0c44298fc1c149afbf4c8996fb92427ae41e4649b934ca495991b7852b855"},
    {"RFC 4231 case 1", it.hmac_of(("\11"):rep(20))("Hi There"), "b0344c61d8db38535ca8afceaf0bf12b881dc200c9833da726e9376c2e32cff7"},
    {"RFC 4231 case 2", it.hmac_of("Jefe")("what do ya want for nothing?"), "5bdcc146bf60754e6a042426089575c75a003f089d2739839dec58b964ec3843"},
    {"RFC 4231 case 6", it.hmac_of(("\170"):rep(131))("Test Using Larger Than Block-Size Key - Hash Key First"),
        "60e431591ee0b67f0d8a26aacbf5b77f8e0bc6213728c5140546040f0ee37f54"},
}

local differ = 0
for _, vector in ipairs(vectors) do
    local name, got, want = vector[1], hex(vector[2]), vector[3]:gsub("%s", "")
    if got ~= want then
        differ = differ + 1
        print(name .. ": " .. got .. ", not " .. want)
    end
end
if differ == 0 then print(#vectors .. " vectors") end
