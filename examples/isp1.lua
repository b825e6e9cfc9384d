-- Shows the messages of ISP1, the transport of SLE (CCSDS 913.1-B), in a network analyser: the type of
-- each, its length, and what stands in a context. Written for Wireshark and tshark 4.0.
--
--   tshark -X lua_script:examples/isp1.lua -r pass.pcap

local isp1 = Proto("isp1", "ISP1, the transport of SLE")

local types = { [1] = "PDU", [2] = "context", [3] = "heartbeat" }
local f_type = ProtoField.uint8("isp1.type", "Type", base.DEC, types)
local f_length = ProtoField.uint32("isp1.length", "Length", base.DEC)
local f_version = ProtoField.uint8("isp1.version", "Version", base.DEC)
local f_interval = ProtoField.uint16("isp1.interval", "Heartbeat interval in seconds", base.DEC)
local f_factor = ProtoField.uint16("isp1.factor", "Dead factor", base.DEC)
local f_pdu = ProtoField.bytes("isp1.pdu", "PDU")
isp1.fields = { f_type, f_length, f_version, f_interval, f_factor, f_pdu }

-- a type, three octets 0, and the length of what stands behind
local HEAD = 8

local function length_of(buffer, pinfo, offset)
  return HEAD + buffer(offset + 4, 4):uint()
end

local function dissect(buffer, pinfo, tree)
  local kind = buffer(0, 1):uint()
  local length = buffer(4, 4):uint()
  pinfo.cols.protocol = "ISP1"
  pinfo.cols.info = (types[kind] or "unknown") .. ", " .. length .. " octets"
  local branch = tree:add(isp1, buffer())
  branch:add(f_type, buffer(0, 1))
  branch:add(f_length, buffer(4, 4))
  if kind == 2 and length == 12 then
    branch:add(f_version, buffer(15, 1))
    branch:add(f_interval, buffer(16, 2))
    branch:add(f_factor, buffer(18, 2))
  elseif length > 0 then
    branch:add(f_pdu, buffer(HEAD))
  end
  return buffer:len()
end

function isp1.dissector(buffer, pinfo, tree)
  dissect_tcp_pdus(buffer, tree, HEAD, length_of, dissect)
end

DissectorTable.get("tcp.port"):add(5100, isp1)
