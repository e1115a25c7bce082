"""Words of numbers, as the listing has them, and the fields of Attributes. This file is made by tools/tables."""

OSTYPE = {1: "RT-11", 2: "RSTS/E", 3: "RSX-11S", 4: "RSX-11M", 6: "IAS", 7: "VAX/VMS", 8: "TOPS-20", 9: "TOPS-10",
          12: "RSX-11M-PLUS", 18: "Ultrix-32", 5: "RSX-11D", 10: "RTS-8", 11: "OS-8", 13: "COPOS/11", 14: "P/OS",
          15: "VAXELN", 16: "CP/M", 17: "MS-DOS", 19: "Ultrix-11", 21: "DTF/MVS"}
ORG = {0: "sequential", 16: "relative", 32: "indexed"}
RFM = {0: "undefined", 1: "fixed", 2: "variable", 3: "VFC", 4: "stream", 5: "stream LF", 6: "stream CR"}
ACCFUNC = {1: "open", 2: "create", 3: "rename", 4: "erase", 6: "directory"}
CTLFUNC = {1: "get", 2: "connect", 3: "update", 4: "put", 5: "delete", 6: "rewind"}
RAC = {0: "sequential", 1: "by number", 2: "by RFA", 3: "whole file", 4: "by VBN", 5: "blocks"}
CONFUNC = {1: "try again", 2: "skip", 3: "abort", 4: "resume"}
CMPFUNC = {1: "close", 2: "response", 3: "purge", 4: "end of stream", 5: "skip"}
STSCODE = {0x5027: "end of file", 0x4032: "file not found", 0x4030: "file locked", 0x402d: "file exists",
           0x4055: "not permitted", 0x405d: "bad attributes", 0x502c: "not permitted", 0x5019: "no current record",
           0x5060: "record not found", 0x505b: "record exists", 0x5049: "number out of range", 0x5066: "bad length",
           0x5057: "bad access mode", 0x503a: "delete not allowed", 0x5067: "too large for buffer", 0x503e: "bad key"}
MACCODE = {0: "pending", 1: "success", 2: "unsupported", 4: "error on opening", 5: "transfer error",
           6: "transfer warning", 7: "termination error", 8: "format", 9: "invalid", 10: "out of synchronization"}
REASON = {1: "file exists", 2: "not permitted", 3: "no current record", 4: "record not found", 5: "record exists",
          6: "number out of range", 7: "bad length", 8: "bad access mode", 9: "delete not allowed",
          10: "too large for buffer", 11: "bad attributes", 12: "bad key"}
FILESYS = {1: "RMS-11", 2: "RMS-20", 3: "RMS-32", 4: "FCS-11", 5: "RT-11", 6: "none", 7: "TOPS-20", 8: "TOPS-10",
           9: "OS-8", 10: "RMS-32S", 11: "CP/M", 12: "MS-DOS", 13: "Ultrix-32", 14: "Ultrix-11"}
LINK_REASON = {0: "no error", 1: "no resources", 2: "unknown node", 3: "the node is shutting down", 4: "unknown object",
               5: "a name that is no object's", 6: "busy", 7: "unspecified error", 8: "aborted by management",
               9: "aborted", 10: "a name that is no node's", 11: "the local node is shut down",
               32: "the node has no room for another link", 33: "the object has no room for another link",
               34: "the user or the password was rejected", 36: "the account was rejected",
               38: "the object didn't answer", 39: "the node can't be reached", 41: "no such link",
               42: "disconnect complete", 43: "a field of the connect message is too long"}
# by the bits of RAT
RAT = {0: "FTN", 1: "CR", 2: "PRN", 3: "BLK"}
# Attributes: the most bytes of the menu; by the bits of that each field, its kind, and its bytes or the most
ATTRIBUTES_MENU = 6
ATTRIBUTES = {"datatype": ("extensible", 2), "org": ("byte", 1), "rfm": ("byte", 1), "rat": ("extensible", 3),
              "bls": ("word", 2), "mrs": ("word", 2), "alq": ("image", 5), "bks": ("byte", 1), "fsz": ("byte", 1),
              "mrn": ("image", 5), "runsys": ("image", 40), "deq": ("word", 2), "fop": ("extensible", 6),
              "bsz": ("byte", 1), "dev": ("extensible", 6), "sdc": ("extensible", 6), "lrl": ("word", 2),
              "hbk": ("image", 5), "ebk": ("image", 5), "ffb": ("word", 2), "sbn": ("image", 5)}
