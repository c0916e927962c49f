//! Stands in for types/information_objects: the objects of an ASDU, each an address of three octets and its element; with the sequence flag
//! one address and then the elements, addresses counting up. Objects of types that no handler serves are kept as octets.

use crate::{
    types::{
        CBoNa1, CBoTa1, CCiNa1, CCsNa1, CIcNa1, CRdNa1, CRpNa1, CScNa1, CScTa1, CSeNa1, CSeNb1, CSeNc1, CSeTa1, CSeTb1, CSeTc1, CTsNa1,
        CTsTa1, CdcNa1, CdcTa1, CrcNa1, CrcTa1, FromBytes, GenericObject, MBoNa1, MBoTb1, MDpNa1, MDpTa1, MDpTb1, MEiNa1, MEpTa1, MEpTb1,
        MEpTc1, MEpTd1, MEpTe1, MEpTf1, MItNa1, MItTb1, MMeNa1, MMeNb1, MMeNc1, MMeNd1, MMeTa1, MMeTb1, MMeTc1, MMeTd1, MMeTe1, MMeTf1,
        MPsNa1, MSpNa1, MSpTa1, MSpTb1, MStNa1, MStTa1, MStTb1, ParseError, ToBytes,
    },
    types_id::TypeId,
};

pub const ADDRESS_SIZE: usize = 3;

/// The objects one after another.
fn read<T: FromBytes + ToBytes + Default>(
    size: usize,
    sequence: bool,
    count: u8,
    octets: &[u8],
) -> Result<Vec<GenericObject<T>>, ParseError> {
    let address_at = |at: usize| u32::from_le_bytes([octets[at], octets[at + 1], octets[at + 2], 0]);
    (0..count as usize)
        .map(|i| {
            let (address, at) = if sequence {
                (address_at(0) + i as u32, ADDRESS_SIZE + i * size)
            } else {
                let start = i * (ADDRESS_SIZE + size);
                (address_at(start), start + ADDRESS_SIZE)
            };
            Ok(GenericObject { address, object: T::from_bytes(&octets[at..at + size])? })
        })
        .collect()
}

fn write<T: FromBytes + ToBytes + Default>(objects: &[GenericObject<T>], buffer: &mut Vec<u8>) -> Result<(), ParseError> {
    for object in objects {
        buffer.extend_from_slice(&object.address.to_le_bytes()[..ADDRESS_SIZE]);
        object.object.to_bytes(buffer)?;
    }
    Ok(())
}

macro_rules! information_objects {
    ($($type_id:ident $name:ident;)*) => {
        #[derive(Debug, Clone, PartialEq)]
        pub enum InformationObjects {
            $( $name(Vec<GenericObject<$name>>), )*
            Other(Vec<u8>),
        }

        $(
            impl From<Vec<GenericObject<$name>>> for InformationObjects {
                fn from(objects: Vec<GenericObject<$name>>) -> Self {
                    InformationObjects::$name(objects)
                }
            }
        )*

        impl InformationObjects {
            pub fn from_bytes(type_id: TypeId, sequence: bool, count: u8, octets: &[u8]) -> Result<Self, ParseError> {
                match type_id {
                    $( TypeId::$type_id => Ok(InformationObjects::$name(read(type_id.size(), sequence, count, octets)?)), )*
                    _ => Ok(InformationObjects::Other(octets.to_vec())),
                }
            }

            pub fn to_bytes(&self, buffer: &mut Vec<u8>) -> Result<(), ParseError> {
                match self {
                    $( InformationObjects::$name(objects) => write(objects, buffer), )*
                    InformationObjects::Other(octets) => {
                        buffer.extend_from_slice(octets);
                        Ok(())
                    }
                }
            }

            pub fn len(&self) -> usize {
                match self {
                    $( InformationObjects::$name(objects) => objects.len(), )*
                    InformationObjects::Other(_) => 0,
                }
            }
        }
    };
}

information_objects! {
    M_SP_NA_1 MSpNa1; M_SP_TA_1 MSpTa1; M_DP_NA_1 MDpNa1; M_DP_TA_1 MDpTa1; M_ST_NA_1 MStNa1; M_ST_TA_1 MStTa1; M_BO_NA_1 MBoNa1;
    M_ME_NA_1 MMeNa1; M_ME_TA_1 MMeTa1; M_ME_NB_1 MMeNb1; M_ME_TB_1 MMeTb1; M_ME_NC_1 MMeNc1; M_ME_TC_1 MMeTc1; M_IT_NA_1 MItNa1;
    M_EP_TA_1 MEpTa1; M_EP_TB_1 MEpTb1; M_EP_TC_1 MEpTc1; M_PS_NA_1 MPsNa1; M_ME_ND_1 MMeNd1; M_SP_TB_1 MSpTb1; M_DP_TB_1 MDpTb1;
    M_ST_TB_1 MStTb1; M_BO_TB_1 MBoTb1; M_ME_TD_1 MMeTd1; M_ME_TE_1 MMeTe1; M_ME_TF_1 MMeTf1; M_IT_TB_1 MItTb1; M_EP_TD_1 MEpTd1;
    M_EP_TE_1 MEpTe1; M_EP_TF_1 MEpTf1; M_EI_NA_1 MEiNa1;
    C_SC_NA_1 CScNa1; C_DC_NA_1 CdcNa1; C_RC_NA_1 CrcNa1; C_SE_NA_1 CSeNa1; C_SE_NB_1 CSeNb1; C_SE_NC_1 CSeNc1; C_BO_NA_1 CBoNa1;
    C_SC_TA_1 CScTa1; C_DC_TA_1 CdcTa1; C_RC_TA_1 CrcTa1; C_SE_TA_1 CSeTa1; C_SE_TB_1 CSeTb1; C_SE_TC_1 CSeTc1; C_BO_TA_1 CBoTa1;
    C_IC_NA_1 CIcNa1; C_CI_NA_1 CCiNa1; C_RD_NA_1 CRdNa1; C_CS_NA_1 CCsNa1; C_TS_NA_1 CTsNa1; C_RP_NA_1 CRpNa1; C_TS_TA_1 CTsTa1;
}
